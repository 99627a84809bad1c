//! Books: a cell or two at every limit that a sound book has, and beyond the day's sizes, where nothing is read.

use super::minus;
use super::Case::{self, Book};
use crate::layout::*;
use crate::paper::*;

fn book(name: &'static str, cells: &[(usize, u64)]) -> Case {
    Book(name, LENGTH, cells.to_vec())
}

pub fn cases() -> Vec<Case> {
    vec![
        book("as opened", &[]),
        Book("short", LENGTH - 1, vec![]),
        Book("long", LENGTH + 1, vec![]),
        Book("of no cell", 0, vec![]),
        book("1 participant", &[(PARTICIPANTS, 1)]),
        book("12 participants", &[(PARTICIPANTS, MOST_PARTICIPANTS as u64)]),
        book("13 participants", &[(PARTICIPANTS, MOST_PARTICIPANTS as u64 + 1)]),
        book("0 issues", &[(ISSUES, 0)]),
        book("4 issues, the last with no code", &[(ISSUES, 4)]),
        book("33 issues", &[(ISSUES, MOST_ISSUES as u64 + 1)]),
        book("1 run", &[(RUNS, 1)]),
        book("3 runs", &[(RUNS, MOST_RUNS)]),
        book("4 runs", &[(RUNS, MOST_RUNS + 1)]),
        book("10000 trades", &[(TRADES, MOST_TRADES)]),
        book("10001 trades", &[(TRADES, MOST_TRADES + 1)]),
        book("a check digit wrong", &[(byte(2, 11), b'3'.into())]),
        book("a code's cell above a byte", &[(byte(2, 11), 256 + u64::from(b'4'))]),
        book("a code's cell beyond the day's issues", &[(byte(3, 0), b'3'.into())]),
        book("kind 7", &[(term(0, KIND), most(KIND) + 1)]),
        book("price 999", &[(term(0, PRICE), least(PRICE) - 1)]),
        book("price 30001", &[(term(2, PRICE), most(PRICE) + 1)]),
        book("coupon 20001", &[(term(0, COUPON), most(COUPON) + 1)]),
        book("days 367", &[(term(0, DAYS), most(DAYS) + 1)]),
        book("redeemed 2", &[(term(0, REDEEMED), 2)]),
        book("interest paid 2", &[(term(0, INTEREST), 2)]),
        book("receipt 10^12", &[(lots(RECEIPTS, 2, 2), RECEIPT)]),
        book("receipt 10^12 + 1", &[(lots(RECEIPTS, 2, 2), RECEIPT + 1)]),
        book("a receipt beyond the day's issues", &[(lots(RECEIPTS, 0, 3), RECEIPT + 1)]),
        book("pair 0 1 marked 1", &[(mark(PAIRS, 0, 0, 1), 1)]),
        book("pair 0 1 marked 2", &[(mark(PAIRS, 0, 0, 1), 2)]),
        book("pair 0 0 marked 1", &[(mark(PAIRS, 0, 0, 0), 1)]),
        book("pair 0 3 marked 2", &[(mark(PAIRS, 0, 0, 3), 2)]),
        book("pair today G 2 1 marked 1", &[(mark(TODAY, 6, 2, 1), 1)]),
        book("pair today G 2 1 marked 2", &[(mark(TODAY, 6, 2, 1), 2)]),
        book("pair today G 2 2 marked 1", &[(mark(TODAY, 6, 2, 2), 1)]),
        book("a position with no other", &[(position(3, 0), 1)]),
        book("a position beyond the day's participants", &[(position(3, 3), 1)]),
        book("positions 10^13", &[(position(3, 0), POSITION), (position(3, 2), minus(POSITION))]),
        book("positions 10^13 + 1", &[(position(3, 0), POSITION + 1), (position(3, 2), minus(POSITION + 1))]),
        book("positions in a basket with no unmarked issue", &[(position(0, 0), 1), (position(0, 1), minus(1))]),
        book("notice 200000000", &[(lots(NOTICES, 2, 0), NOTICE)]),
        book("notice 200000001", &[(lots(NOTICES, 2, 0), NOTICE + 1)]),
        book("a notice beyond the day's issues", &[(lots(NOTICES, 2, 3), NOTICE + 1)]),
        book("tally 1 and no run", &[(lots(TALLY, 0, 0), 1)]),
        book("tally -1 and no run", &[(lots(TALLY, 0, 0), minus(1))]),
        book("tally 10^11 and 1 run", &[(lots(TALLY, 0, 0), TALLY_A_RUN), (RUNS, 1)]),
        book("tally 10^11 + 1 and 1 run", &[(lots(TALLY, 0, 0), TALLY_A_RUN + 1), (RUNS, 1)]),
        book("tally -10^11 and 1 run", &[(lots(TALLY, 0, 0), minus(TALLY_A_RUN)), (RUNS, 1)]),
        book("tally -10^11 - 1 and 1 run", &[(lots(TALLY, 0, 0), minus(TALLY_A_RUN + 1)), (RUNS, 1)]),
        book("tally 3 x 10^11 and 3 runs", &[(lots(TALLY, 0, 0), 3 * TALLY_A_RUN), (RUNS, MOST_RUNS)]),
        book("notice 1 and 3 runs", &[(lots(NOTICES, 0, 0), 1), (RUNS, MOST_RUNS)]),
    ]
}
