//! The stored cases of the calls: every refusal that opening, trade, notice and close can give, and both sides of every bound.
//! Their answers are in cases/calls.txt.

mod books;
mod closes;
mod notices;
mod openings;
mod trades;

use crate::calls::{Call, Opening};
use crate::layout::{Sizes, LENGTH, RUNS};
use crate::paper::{CODE, MOST_ISSUES, MOST_RUNS, REDEEMED, TEN_YEAR, TERM};
use crate::sample::at_par;

/// A case with a name has a line of the answers. Calls are made on one book, which `Day` opens; an opening with a name has its own.
pub enum Case {
    Day(Opening),
    /// A cell of the book is set by hand.
    Put(usize, u64),
    /// An opening with so many cells of a book.
    Open(&'static str, Opening, usize),
    Made(&'static str, Call),
    /// A trade and a notice on the usual day's book with cells set by hand, of which so many cells are lent.
    Book(&'static str, usize, Vec<(usize, u64)>),
}

/// What every cell that a call may write has before it.
pub const BEFORE: u64 = 9;

/// The usual day.
const USUAL: Sizes = Sizes { participants: 3, issues: 3 };

/// JP0000000018 and so on, right codes that rise: an issue more than a day may have.
const NUMBERS: [u64; MOST_ISSUES + 1] = [
    18, 26, 34, 42, 59, 67, 75, 83, 91, 109, 117, 125, 133, 141, 158, 166, 174, 182, 190, 208, 216, 224, 232, 240, 257, 265, 273, 281, 299, 307, 315,
    323, 331,
];
const BOND: [u64; TERM] = at_par(TEN_YEAR);
const BILL: [u64; TERM] = {
    let mut terms = at_par(0);
    terms[REDEEMED] = 1;
    terms
};

/// How many bytes of codes, terms, receipts, pair marks and cells of the book are lent.
type Lengths = [usize; 5];

/// The lengths that an opening of these sizes asks for.
const fn lengths(sizes: Sizes) -> Lengths {
    [sizes.codes(), sizes.terms(), sizes.receipts(), sizes.pairs(), LENGTH]
}

/// Bonds with no receipts and no pairs, but issue 2 is a bill that is redeemed on the following day.
fn day_of(sizes: Sizes, [codes, terms, receipts, pairs, _]: Lengths) -> Opening {
    Opening {
        participants: sizes.participants as u64,
        issues: sizes.issues as u64,
        codes: NUMBERS.iter().flat_map(|number| format!("JP{number:0width$}", width = CODE - 2).into_bytes()).take(codes).collect(),
        terms: (0..NUMBERS.len()).flat_map(|issue| if issue == 2 { BILL } else { BOND }).take(terms).collect(),
        receipts: vec![0; receipts],
        pairs: vec![0; pairs],
    }
}

pub fn usual_day() -> Opening {
    day_of(USUAL, lengths(USUAL))
}

fn small_day() -> Case {
    Case::Day(usual_day())
}

fn large_day() -> Case {
    Case::Day(day_of(Sizes::LARGEST, lengths(Sizes::LARGEST)))
}

fn trade(name: &'static str, seller: u64, buyer: u64, basket: u64, yen: u64) -> Case {
    Case::Made(name, Call::Trade { seller, buyer, basket, yen })
}

fn notice(name: &'static str, participant: u64, issues: &[u64], lots: &[u64]) -> Case {
    Case::Made(name, Call::Notice { participant, issues: issues.to_vec(), lots: lots.to_vec() })
}

const fn minus(number: u64) -> u64 {
    number.wrapping_neg()
}

pub fn cases() -> Vec<Case> {
    [openings::cases(), trades::cases(), notices::cases(), books::cases(), late(), closes::cases()].into_iter().flatten().collect()
}

/// Positions that add up to zero stand in the book after three runs.
fn late() -> Vec<Case> {
    vec![
        small_day(),
        trade("before three runs", 0, 1, 2, 5),
        Case::Put(RUNS, MOST_RUNS),
        trade("three runs done and a position stands", 0, 1, 2, 5),
        notice("three runs done and a position stands", 0, &[0], &[5]),
    ]
}
