//! Openings: each size, each length, codes, terms, receipts and pair marks, and which refusal comes first.

use super::{day_of, lengths, usual_day, Case, Lengths, USUAL};
use crate::calls::Opening;
use crate::layout::{entry, Sizes, LENGTH};
use crate::paper::*;
use Case::Open;
use Change::*;

/// What an opening of the usual day is given at a place instead of the usual.
enum Change {
    /// issue, byte, and what is there
    Code(usize, usize, u8),
    /// issue, term, and what is there
    Term(usize, usize, u64),
    /// participant, issue, lots
    Receipt(usize, usize, u64),
    /// basket, deliverer, receiver, mark
    Pair(usize, usize, usize, u64),
}

/// An opening of these sizes, its lengths right.
fn sizes(name: &'static str, participants: usize, issues: usize) -> Case {
    let sizes = Sizes { participants, issues };
    Open(name, day_of(sizes, lengths(sizes)), LENGTH)
}

/// An opening of the usual day with these lengths and changes.
fn lent(name: &'static str, lengths: Lengths, changes: &[Change]) -> Case {
    let mut given = day_of(USUAL, lengths);
    for change in changes {
        match *change {
            Code(issue, byte, to) => given.codes[entry(CODE, issue)][byte] = to,
            Term(issue, term, to) => given.terms[entry(TERM, issue)][term] = to,
            Receipt(participant, issue, lots) => given.receipts[USUAL.receipt(participant, issue)] = lots,
            Pair(basket, deliverer, receiver, mark) => given.pairs[USUAL.pair(basket, deliverer, receiver)] = mark,
        }
    }
    Open(name, given, lengths[4])
}

fn with(name: &'static str, changes: &[Change]) -> Case {
    lent(name, lengths(USUAL), changes)
}

/// The usual lengths, but one.
fn off(which: usize, by: isize) -> Lengths {
    let mut lengths = lengths(USUAL);
    lengths[which] = lengths[which].strict_add_signed(by);
    lengths
}

pub fn cases() -> Vec<Case> {
    vec![
        // each size, its lengths right
        sizes("2 participants, 1 issue", 2, 1),
        sizes("12 participants, 32 issues", MOST_PARTICIPANTS, MOST_ISSUES),
        sizes("1 participant", 1, 3),
        sizes("13 participants", MOST_PARTICIPANTS + 1, 3),
        sizes("0 issues", 3, 0),
        sizes("33 issues", 3, MOST_ISSUES + 1),
        sizes("0 participants", 0, 3),
        Open("participants as many as can be", Opening { participants: u64::MAX, ..usual_day() }, LENGTH),
        Open("issues as many as can be", Opening { issues: u64::MAX, ..usual_day() }, LENGTH),
        // each length one off
        with("lengths right", &[]),
        lent("codes short", off(0, -1), &[]),
        lent("codes long", off(0, 1), &[]),
        lent("terms short", off(1, -1), &[]),
        lent("terms long", off(1, 1), &[]),
        lent("receipts short", off(2, -1), &[]),
        lent("receipts long", off(2, 1), &[]),
        lent("pair marks short", off(3, -1), &[]),
        lent("pair marks long", off(3, 1), &[]),
        lent("book short", off(4, -1), &[]),
        lent("book long", off(4, 1), &[]),
        lent("nothing lent", [0; 5], &[]),
        // codes
        with("first check digit wrong", &[Code(0, 11, b'9')]),
        with("last check digit wrong", &[Code(2, 11, b'3')]),
        with("small letter", &[Code(2, 10, b'a')]),
        with("capital in a code", &[Code(2, 10, b'A'), Code(2, 11, b'6')]),
        with("right ISIN of no country JQ", &[Code(2, 1, b'Q'), Code(2, 11, b'3')]),
        with("first code equal to the second", &[Code(0, 10, b'2'), Code(0, 11, b'6')]),
        with("first code after the second", &[Code(0, 10, b'4'), Code(0, 11, b'2')]),
        with("last code before the second", &[Code(2, 10, b'0'), Code(2, 11, b'0')]),
        // terms, of the first issue and of the last
        with("kind 6", &[Term(0, KIND, most(KIND))]),
        with("kind 7", &[Term(0, KIND, most(KIND) + 1)]),
        with("price 999", &[Term(0, PRICE, least(PRICE) - 1)]),
        with("price 1000", &[Term(0, PRICE, least(PRICE))]),
        with("price 30000", &[Term(0, PRICE, most(PRICE))]),
        with("price 30001", &[Term(0, PRICE, most(PRICE) + 1)]),
        with("coupon 20000", &[Term(0, COUPON, most(COUPON))]),
        with("coupon 20001", &[Term(0, COUPON, most(COUPON) + 1)]),
        with("days 366", &[Term(2, DAYS, most(DAYS))]),
        with("days 367", &[Term(2, DAYS, most(DAYS) + 1)]),
        with("redeemed 1", &[Term(0, REDEEMED, 1)]),
        with("redeemed 2", &[Term(0, REDEEMED, 2)]),
        with("interest paid 1", &[Term(2, INTEREST, 1)]),
        with("interest paid 2", &[Term(2, INTEREST, 2)]),
        // receipts and pair marks
        with("first receipt 10^12", &[Receipt(0, 0, RECEIPT)]),
        with("first receipt 10^12 + 1", &[Receipt(0, 0, RECEIPT + 1)]),
        with("last receipt 10^12", &[Receipt(2, 2, RECEIPT)]),
        with("last receipt 10^12 + 1", &[Receipt(2, 2, RECEIPT + 1)]),
        with("pair A 0 1 marked 1", &[Pair(0, 0, 1, 1)]),
        with("pair A 0 1 marked 2", &[Pair(0, 0, 1, 2)]),
        with("pair G 2 1 marked 1", &[Pair(6, 2, 1, 1)]),
        with("pair G 2 1 marked 2", &[Pair(6, 2, 1, 2)]),
        with("pair A 0 0 marked 1", &[Pair(0, 0, 0, 1)]),
        with("pair G 2 2 marked 1", &[Pair(6, 2, 2, 1)]),
        // which comes first
        lent("codes short and first check digit wrong", off(0, -1), &[Code(0, 11, b'9')]),
        lent("book short and kind 7", off(4, -1), &[Term(0, KIND, most(KIND) + 1)]),
        with("first kind 7 and last check digit wrong", &[Term(0, KIND, most(KIND) + 1), Code(2, 11, b'3')]),
        with("first receipt too large and last check digit wrong", &[Receipt(0, 0, RECEIPT + 1), Code(2, 11, b'3')]),
        with("first receipt too large and last days 367", &[Receipt(0, 0, RECEIPT + 1), Term(2, DAYS, most(DAYS) + 1)]),
        with("pair A 0 0 and last days 367", &[Pair(0, 0, 0, 1), Term(2, DAYS, most(DAYS) + 1)]),
    ]
}
