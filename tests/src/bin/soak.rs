//! Days in a row, each of 10,000 trades and 240 notices, three runs and a close into the next. Yen and lots are counted apart from the book, and
//! every day's sums are checked. `soak SEED SIZE`: the size counts days.

use allocation_tests::calls::{Allocation, Call, Opening, Reply};
use allocation_tests::compare::agreed;
use allocation_tests::entries::{Line, Match};
use allocation_tests::layout::{entry, lots, position, LENGTH, TALLY, TRADES};
use allocation_tests::library::Library;
use allocation_tests::names::book_place;
use allocation_tests::paper::{Refusal, BASKETS, MOST_ISSUES, MOST_PARTICIPANTS, MOST_RUNS, MOST_TRADES, TERM};
use allocation_tests::random::{seed_and_size, Random};
use allocation_tests::sample::{self, LARGE};

const NOTICES_A_RUN: u64 = 80;
const PEOPLE: usize = MOST_PARTICIPANTS;

/// What the calls of a day come to, counted from the calls and the lists alone.
struct Counted {
    positions: [[i128; PEOPLE]; BASKETS],
    /// by participant and issue: delivered less received
    tally: [[i128; MOST_ISSUES]; PEOPLE],
    matches: u64,
    short: u64,
    forced: u64,
    lots: i128,
}

impl Counted {
    fn new() -> Self {
        Counted { positions: [[0; PEOPLE]; BASKETS], tally: [[0; MOST_ISSUES]; PEOPLE], matches: 0, short: 0, forced: 0, lots: 0 }
    }

    fn traded(&mut self, seller: u64, buyer: u64, basket: u64, yen: u64) {
        self.positions[basket as usize][seller as usize] += i128::from(yen);
        self.positions[basket as usize][buyer as usize] -= i128::from(yen);
    }

    fn ran(&mut self, matches: &[Match], lines: &[Line]) {
        for entry in matches {
            self.positions[entry.basket][entry.deliverer] -= i128::from(entry.covered);
            self.positions[entry.basket][entry.receiver] += i128::from(entry.covered);
            self.short += u64::from(entry.covered < entry.matched);
            self.forced += u64::from(entry.forced_lots > 0);
        }
        for line in lines {
            let entry = matches[line.number];
            self.tally[entry.deliverer][line.issue] += i128::from(line.lots);
            self.tally[entry.receiver][line.issue] -= i128::from(line.lots);
            self.lots += i128::from(line.lots);
        }
        self.matches += matches.len() as u64;
    }

    /// The book says the same; positions sum to zero in a basket, and the tally in an issue.
    fn check(&self, book: &[u64]) {
        let held = |place: usize, counted: i128| assert_eq!(i128::from(book[place] as i64), counted, "{}", book_place(place));
        for (basket, row) in self.positions.iter().enumerate() {
            row.iter().enumerate().for_each(|(p, &yen)| held(position(basket, p), yen));
            assert_eq!(row.iter().sum::<i128>(), 0, "the sum of positions of basket {basket}");
        }
        for (p, row) in self.tally.iter().enumerate() {
            row.iter().enumerate().for_each(|(issue, &count)| held(lots(TALLY, p, issue), count));
        }
        for issue in 0..MOST_ISSUES {
            assert_eq!(self.tally.iter().map(|row| row[issue]).sum::<i128>(), 0, "the sum of tallies in issue {issue}");
        }
    }
}

/// Trades of which every one is accepted.
fn trades(r: &mut Random, count: u64, book: &mut [u64], counted: &mut Counted) {
    for _ in 0..count {
        let seller = r.below(PEOPLE as u64);
        let buyer = (seller + r.between(1, PEOPLE as u64 - 1)) % PEOPLE as u64;
        let (basket, yen) = (r.below(BASKETS as u64), r.between(1, 50_000_000_000));
        assert_eq!(Library.make(&mut Call::Trade { seller, buyer, basket, yen }, book), Reply::Accepted);
        counted.traded(seller, buyer, basket, yen);
    }
}

/// A day from its opening to its close, which gives the next opening its receipts and pairs.
fn day(r: &mut Random, opening: &mut Opening, seed: u64) -> Counted {
    let mut book = vec![0; LENGTH];
    let mut counted = Counted::new();
    assert_eq!(Library.make(&mut Call::Open(opening.clone()), &mut book), Reply::Accepted);
    for run in 1..=MOST_RUNS {
        let so_far = MOST_TRADES * run / MOST_RUNS;
        trades(r, so_far - book[TRADES], &mut book, &mut counted);
        for _ in 0..NOTICES_A_RUN {
            assert_eq!(agreed(&sample::notice(r, &LARGE, opening), &mut book, seed).0, Reply::Accepted);
        }
        if so_far == MOST_TRADES {
            let more = &mut Call::Trade { seller: 0, buyer: 1, basket: 0, yen: 1 };
            assert_eq!(Library.make(more, &mut book), Reply::Refused(Refusal::Trades));
        }
        let (reply, left) = agreed(&sample::run(r, opening), &mut book, seed);
        assert!(matches!(reply, Reply::Ran { .. }), "{reply}");
        let (matches, lines) = left.entries(reply);
        counted.ran(&matches, &lines);
        counted.check(&book);
    }
    assert!(counted.positions.iter().flatten().all(|&yen| yen == 0), "a position stands after the third run");
    let (reply, closed) = agreed(&sample::close(opening), &mut book, seed);
    assert_eq!(reply, Reply::Accepted);
    opening.follow(&closed);
    counted
}

/// An opening of the largest day in which every basket can be traded.
fn largest(r: &mut Random) -> Opening {
    let mut opening = sample::largest(r);
    opening.terms[entry(TERM, 0)].copy_from_slice(&sample::at_par(0));
    opening
}

fn main() {
    let (seed, days) = seed_and_size("soak", 1, 250);
    let r = &mut Random::new(seed);
    let mut opening = largest(r);
    let (mut matches, mut short, mut forced, mut lots) = (0, 0, 0, 0);
    for _ in 0..days {
        let counted = day(r, &mut opening, seed);
        matches += counted.matches;
        short += counted.short;
        forced += counted.forced;
        lots += counted.lots;
        // tomorrow's bonds are today's, their terms are not
        opening.terms = largest(r).terms;
    }
    println!(
        "soak: {days} days in a row, {} trades, {} notices, {matches} matches ({short} short, {forced} forced), {lots} lots; every day's sums are right",
        days * MOST_TRADES,
        days * MOST_RUNS * NOTICES_A_RUN
    );
}
