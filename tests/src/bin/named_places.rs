//! Every number and place that include/allocation.h names, held to the library alone: after a call on a book the cells that are named, and no
//! others, have changed. The days are such that what a call leaves is plain: issues at par, and yen that are so many lots. A name that no check
//! has fails.

use allocation_tests::calls::{Allocation, Call, Opening, Reply};
use allocation_tests::header::*;
use allocation_tests::layout::entry;
use allocation_tests::library::{book_length, Library};
use allocation_tests::names::book_place;
use allocation_tests::paper::{Refusal, LOT, MOST_ISSUES, MOST_PARTICIPANTS};
use allocation_tests::random::Random;
use allocation_tests::sample::{self, UNWRITTEN};

/// The names of the header without ALLOCATION_, after the check that holds them.
type Check = (fn(), &'static [&'static str]);
const CHECKS: [Check; 5] = [
    (check_book, &["BOOK"]),
    (check_trades, &["ACCEPTED", "TRADES", "POSITIONS"]),
    (check_baskets, &["BASKETS"]),
    (check_notices, &["NOTICES"]),
    (check_runs, &["MATCH", "LINE", "MATCHES", "LINES", "RUNS", "TODAY", "TALLY"]),
];

/// The largest day, all issues bills at par and scheduled for everyone, no pairs.
fn opening() -> Opening {
    let mut opening = sample::largest(&mut Random::new(1));
    opening.terms = sample::at_par(0).repeat(MOST_ISSUES);
    opening.receipts.fill(1_000);
    opening.pairs.fill(0);
    opening
}

fn opened() -> Vec<u64> {
    let mut book = vec![UNWRITTEN; BOOK];
    accepted(Call::Open(opening()), &mut book);
    book
}

fn accepted(mut call: Call, book: &mut [u64]) {
    assert_eq!(Library.make(&mut call, book), Reply::Accepted, "{call}");
}

fn refused(mut call: Call, book: &mut [u64], refusal: Refusal) {
    assert_eq!(Library.make(&mut call, book), Reply::Refused(refusal), "{call}");
}

fn trade(seller: usize, buyer: usize, basket: usize, yen: u64) -> Call {
    Call::Trade { seller: seller as u64, buyer: buyer as u64, basket: basket as u64, yen }
}

fn notice(participant: usize, issue: usize, lots: u64) -> Call {
    Call::Notice { participant: participant as u64, issues: vec![issue as u64], lots: vec![lots] }
}

/// Each of so many with each of so many others.
fn each(count: usize, others: usize) -> impl Iterator<Item = (usize, usize)> {
    (0..count).flat_map(move |one| (0..others).map(move |other| (one, other)))
}

/// The book is as it was but for these cells, which hold this.
fn changed(mut before: Vec<u64>, cells: &[(usize, u64)], after: &[u64], call: &str) {
    for &(at, value) in cells {
        before[at] = value;
    }
    if let Some(k) = (0..BOOK).find(|&k| before[k] != after[k]) {
        panic!("{call}: by the header cell {k} is {}, the library has {} there; the layout calls it {}", before[k], after[k], book_place(k));
    }
}

fn check_book() {
    assert_eq!(book_length(), BOOK, "the length that the library tells");
    accepted(Call::Open(opening()), &mut [UNWRITTEN; BOOK]);
    refused(Call::Open(opening()), &mut [UNWRITTEN; BOOK - 1], Refusal::Size);
    refused(Call::Open(opening()), &mut [UNWRITTEN; BOOK + 1], Refusal::Size);
}

/// A trade of each seller in each basket.
fn check_trades() {
    let mut book = opened();
    for ((basket, seller), number) in each(BASKETS, MOST_PARTICIPANTS).zip(1..) {
        let (buyer, yen) = ((seller + 5) % MOST_PARTICIPANTS, number);
        let before = book.clone();
        accepted(trade(seller, buyer, basket, yen), &mut book);
        let (sold, bought) = (positions(basket, seller), positions(basket, buyer));
        let cells = [(sold, before[sold].wrapping_add(yen)), (bought, before[bought].wrapping_sub(yen)), (TRADES, number)];
        changed(before, &cells, &book, "a trade");
    }
}

fn check_baskets() {
    accepted(trade(0, 1, BASKETS - 1, 1), &mut opened());
    refused(trade(0, 1, BASKETS, 1), &mut opened(), Refusal::NotOfDay);
}

/// A notice of each issue by each participant, each in the place of the one before.
fn check_notices() {
    let mut book = opened();
    for ((participant, issue), lots) in each(MOST_PARTICIPANTS, MOST_ISSUES).zip(1..) {
        let before = book.clone();
        accepted(notice(participant, issue, lots), &mut book);
        let last = notices(participant, issue.saturating_sub(1));
        changed(before, &[(last, 0), (notices(participant, issue), lots)], &book, "a notice");
    }
}

/// Of each issue by each deliverer, to each receiver.
fn check_runs() {
    for (deliverer, issue) in each(MOST_PARTICIPANTS, MOST_ISSUES) {
        let receiver = (deliverer + 1 + issue % (MOST_PARTICIPANTS - 1)) % MOST_PARTICIPANTS;
        check_run(deliverer, receiver, issue);
    }
}

/// What a basket's match is of: a lot more in each basket, so that no two are alike.
fn lots(basket: usize) -> u64 {
    basket as u64 + 1
}

/// A run after a trade in each basket and a notice of the issue that covers them all.
fn check_run(deliverer: usize, receiver: usize, issue: usize) {
    let all: u64 = (0..BASKETS).map(lots).sum();
    let mut book = opened();
    (0..BASKETS).for_each(|basket| accepted(trade(deliverer, receiver, basket, lots(basket) * LOT), &mut book));
    accepted(notice(deliverer, issue, all), &mut book);

    let draw: Vec<u64> = (0..MOST_PARTICIPANTS as u64).collect();
    let lent = |matches: usize, lines: usize| Call::Run { draw: draw.clone(), matches: vec![UNWRITTEN; matches], lines: vec![UNWRITTEN; lines] };
    refused(lent(MATCHES - 1, LINES), &mut book, Refusal::ShortList);
    refused(lent(MATCHES, LINES - 1), &mut book, Refusal::ShortList);
    let (before, mut call) = (book.clone(), lent(MATCHES, LINES));
    assert_eq!(Library.make(&mut call, &mut book), Reply::Ran { matches: BASKETS, lines: BASKETS });

    let (matches, lines) = entries(deliverer, receiver, issue);
    assert!(call == Call::Run { draw, matches, lines }, "the entries of a run are not MATCH and LINE numbers apart");
    let mut cells = vec![(RUNS, 1), (notices(deliverer, issue), 0), (tally(deliverer, issue), all), (tally(receiver, issue), all.wrapping_neg())];
    for basket in 0..BASKETS {
        cells.extend([(positions(basket, deliverer), 0), (positions(basket, receiver), 0), (today(basket, deliverer, receiver), 1)]);
    }
    changed(before, &cells, &book, "a run");
}

/// The lists that the run leaves: in each basket a match of its yen, and a line of its lots.
fn entries(deliverer: usize, receiver: usize, issue: usize) -> (Vec<u64>, Vec<u64>) {
    let (mut matches, mut lines) = (vec![UNWRITTEN; MATCHES], vec![UNWRITTEN; LINES]);
    for basket in 0..BASKETS {
        let yen = lots(basket) * LOT;
        matches[entry(MATCH, basket)].copy_from_slice(&[basket as u64, deliverer as u64, receiver as u64, yen, yen, 0, 0]);
        lines[entry(LINE, basket)].copy_from_slice(&[basket as u64, issue as u64, lots(basket)]);
    }
    (matches, lines)
}

fn main() {
    for name in NAMES {
        assert!(CHECKS.iter().any(|(_, held)| held.contains(&name)), "the header names ALLOCATION_{name}, and no check here holds it");
    }
    CHECKS.iter().for_each(|(check, _)| check());
    println!("header: {} names; each is the number that the library has, or where the library has it", NAMES.len());
}
