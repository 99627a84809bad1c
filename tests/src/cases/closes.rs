//! Closes of a day with deliveries in its tally and a pair of today.

use super::Case::{self, Made, Put};
use super::{minus, small_day, BEFORE, USUAL};
use crate::calls::Call;
use crate::layout::{lots, mark, RUNS, TALLY, TODAY};
use crate::paper::MOST_RUNS;

/// So many places more than the usual day asks for receipts and for pair marks.
fn close(name: &'static str, receipts: isize, pairs: isize) -> Case {
    let list = |length: usize, more| vec![BEFORE; length.strict_add_signed(more)];
    Made(name, Call::Close { receipts: list(USUAL.receipts(), receipts), pairs: list(USUAL.pairs(), pairs) })
}

pub fn cases() -> Vec<Case> {
    vec![
        small_day(),
        Put(lots(TALLY, 0, 0), 5),
        Put(lots(TALLY, 0, 1), minus(7)),
        Put(lots(TALLY, 1, 0), 11),
        Put(mark(TODAY, 1, 0, 2), 1),
        Put(RUNS, MOST_RUNS - 1),
        close("two runs done", 0, 0),
        close("two runs done, and both lists short", -1, -1),
        Put(RUNS, MOST_RUNS),
        close("a place for receipts short", -1, 0),
        close("a place for pairs short", 0, -1),
        close("as many places as needed", 0, 0),
        close("once more, with a place more", 1, 1),
        Put(RUNS, MOST_RUNS + 1),
        close("four runs done, and both lists short", -1, -1),
    ]
}
