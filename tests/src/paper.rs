//! The numbers of document 01, each once and in its order. The reference, the fast version, the random days, the stored cases and the programs
//! take them from here; where they stand in a book is not the paper's, see layout.rs.

use std::ops::RangeInclusive;

/// "A lot is 50,000 yen of face value."
pub const LOT: u64 = 50_000;

// "A day has 2 to 12 participants and 1 to 32 issues, numbered from 0. Baskets A to G are 0 to 6."
pub const FEWEST_PARTICIPANTS: usize = 2;
pub const MOST_PARTICIPANTS: usize = 12;
pub const FEWEST_ISSUES: usize = 1;
pub const MOST_ISSUES: usize = 32;
pub const BASKETS: usize = 7;

/// Are these a day's sizes?
pub fn are_sizes(participants: u64, issues: u64) -> bool {
    let within = |size: u64, fewest: usize, most: usize| fewest as u64 <= size && size <= most as u64;
    within(participants, FEWEST_PARTICIPANTS, MOST_PARTICIPANTS) && within(issues, FEWEST_ISSUES, MOST_ISSUES)
}

/// "runs done (0 to 3)"
pub const MOST_RUNS: u64 = 3;

/// "A code is an ISIN, 12 bytes"
pub const CODE: usize = 12;
/// "the first two bytes of a code are JP"
pub const COUNTRY: [u8; 2] = *b"JP";

/// "Terms are kind, price (hundredths of a yen per 100 face, 1,000 to 30,000), coupon (thousandths of a percent, 0 to 20,000), days of accrued
/// interest (0 to 366), and two marks, 0 or 1: redeemed on the following day, interest paid on the following day."
pub const TERM_RANGES: [(&str, RangeInclusive<u64>); 6] =
    [("kind", 0..=6), ("price", 1_000..=30_000), ("coupon", 0..=20_000), ("days", 0..=366), ("redeemed", 0..=1), ("interest", 0..=1)];
pub const TERM: usize = TERM_RANGES.len();
pub const KIND: usize = 0;
pub const PRICE: usize = 1;
pub const COUPON: usize = 2;
pub const DAYS: usize = 3;
pub const REDEEMED: usize = 4;
pub const INTEREST: usize = 5;

pub const fn least(term: usize) -> u64 {
    *TERM_RANGES[term].1.start()
}

pub const fn most(term: usize) -> u64 {
    *TERM_RANGES[term].1.end()
}

/// "scheduled receipts (0 to 10^12 lots by participant and issue)"
pub const RECEIPT: u64 = 10u64.pow(12);

/// "2 interest-bearing 10-year"
pub const TEN_YEAR: u64 = 2;

/// "A 0; B 0,1; C 0,1,2,3; D C and 4; E C, 4, 5; F C, 4, 6; G all"
pub const COMPOSITION: [&[u64]; BASKETS] =
    [&[0], &[0, 1], &[0, 1, 2, 3], &[0, 1, 2, 3, 4], &[0, 1, 2, 3, 4, 5], &[0, 1, 2, 3, 4, 6], &[0, 1, 2, 3, 4, 5, 6]];

// "5 × n × price, plus n × coupon × days ÷ 730 rounded down once"
pub const PRICE_FACTOR: u64 = 5;
pub const INTEREST_DIVISOR: u64 = 730;

/// "the amount rounded down to a multiple of 5,000,000,000 yen"
pub const TARGET: u64 = 5_000_000_000;
/// "units of 100,000 lots"
pub const UNIT: u64 = 100_000;
/// "the shortage is rounded up to 10,000,000 yen"
pub const SHORTAGE: u64 = 10_000_000;
/// "the fifth largest ISIN"
pub const FIFTH: usize = 5;

/// "A match is basket, deliverer, receiver, matched yen, covered yen, forced issue, forced lots"
pub const MATCH_NUMBERS: [&str; 7] = ["basket", "deliverer", "receiver", "matched yen", "covered yen", "forced issue", "forced lots"];
/// "A line is match number (from 0 in this run), issue, lots with forced ones"
pub const LINE_NUMBERS: [&str; 3] = ["match", "issue", "lots"];
pub const MATCH: usize = MATCH_NUMBERS.len();
pub const LINE: usize = LINE_NUMBERS.len();
// "run 77 matches and 2,464 lines"
pub const MOST_MATCHES: usize = 77;
pub const MOST_LINES: usize = 2_464;

/// "amount 0 or above 10^12 yen"
pub const AMOUNT: u64 = 10u64.pow(12);
/// "a position would pass 10^13 yen either way"
pub const POSITION: u64 = 10u64.pow(13);
/// "10,000 trades accepted already"
pub const MOST_TRADES: u64 = 10_000;
/// "lots above 200,000,000 (0 is allowed)"
pub const NOTICE: u64 = 200_000_000;
/// "a tally is within 10^11 × runs done"
pub const TALLY_A_RUN: u64 = 10u64.pow(11);

/// The check table: what is given, as its number.
#[derive(Clone, Copy, Debug, PartialEq, Eq)]
pub enum Refusal {
    Size = 1,
    Code = 2,
    Term = 3,
    Receipt = 4,
    Unsound = 5,
    ThreeRuns = 6,
    NotOfDay = 7,
    Amount = 8,
    NoIssue = 9,
    Position = 10,
    Trades = 11,
    Entries = 12,
    Lots = 13,
    Draw = 14,
    ShortList = 15,
    FewRuns = 16,
}

/// Every refusal in the order of its number, with the words that day files have for it.
pub const REFUSALS: [(Refusal, &str); 16] = [
    (Refusal::Size, "a size, an array length or the book's length is wrong"),
    (Refusal::Code, "a code breaks the rule"),
    (Refusal::Term, "a term is outside its range"),
    (Refusal::Receipt, "a receipt or pair mark is outside its range, or a pair is of one participant"),
    (Refusal::Unsound, "unsound book"),
    (Refusal::ThreeRuns, "three runs done"),
    (Refusal::NotOfDay, "participant or basket not of this day, or seller is buyer"),
    (Refusal::Amount, "amount 0 or above 10^12 yen"),
    (Refusal::NoIssue, "the basket has no unmarked issue"),
    (Refusal::Position, "a position would pass 10^13 yen either way"),
    (Refusal::Trades, "10,000 trades accepted already"),
    (Refusal::Entries, "no entry, two lengths, an issue not of the day, or one twice"),
    (Refusal::Lots, "lots above 200,000,000"),
    (Refusal::Draw, "the draw does not name each participant once"),
    (Refusal::ShortList, "a lent list is short"),
    (Refusal::FewRuns, "fewer than three runs"),
];

impl Refusal {
    pub fn number(self) -> u64 {
        self as u64
    }

    pub fn of(number: u64) -> Option<Refusal> {
        REFUSALS.iter().map(|&(refusal, _)| refusal).find(|refusal| refusal.number() == number)
    }

    /// Its place in `REFUSALS`.
    pub fn index(self) -> usize {
        self as usize - 1
    }

    pub fn words(self) -> &'static str {
        REFUSALS[self.index()].1
    }
}
