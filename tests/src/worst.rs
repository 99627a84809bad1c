//! The calls that the benchmark measures, on worst-case days.

use crate::calls::{Allocation, Call, Opening, Reply};
use crate::layout::{entry, Sizes, LENGTH};
use crate::paper::*;
use crate::random::Random;
use crate::reference::Reference;
use crate::sample;

const PEOPLE: u64 = MOST_PARTICIPANTS as u64;
const BONDS: u64 = MOST_ISSUES as u64;

/// A call, and the book that it finds.
pub struct Case {
    pub name: &'static str,
    pub book: Vec<u64>,
    pub call: Call,
}

/// What a worst-case day is like.
struct Worst {
    deliverers: u64,
    paired: bool,
    /// all issues are of every basket, or each basket has some of its own
    kinds: &'static [u64],
    most_lots: u64,
    /// notified lots are multiples of this
    step: u64,
    runs_before: usize,
}

/// The cases by name, each after the call that it makes.
pub const NAMES: [(&str, &str); 10] = [
    ("run", "run, 6 deliverers, 77 drawn"),
    ("run", "run, 11 deliverers, 77 drawn"),
    ("run", "run, 6 deliverers, 77 preferential"),
    ("run", "run 2, all short"),
    ("run", "run 3, all forced"),
    ("trade", "trade"),
    ("notice", "notice of 32 issues"),
    ("open", "open"),
    ("close", "close"),
    ("trade", "soundness"),
];

pub fn case(name: &'static str) -> Case {
    match name {
        "run, 6 deliverers, 77 drawn" => run(name, ample(6, false)),
        "run, 11 deliverers, 77 drawn" => run(name, ample(11, false)),
        "run, 6 deliverers, 77 preferential" => run(name, ample(6, true)),
        "run 2, all short" => run(name, scarce(1)),
        "run 3, all forced" => run(name, scarce(2)),
        _ => other(name, ample(6, true)),
    }
}

const EVERY: &[u64] = &[0];
const OWN: &[u64] = COMPOSITION[BASKETS - 1];

/// Whole units have no remainder, so that the second pass goes over every issue for nothing and the third has to end the match.
fn ample(deliverers: u64, paired: bool) -> Worst {
    Worst { deliverers, paired, kinds: EVERY, most_lots: 3_000_000, step: UNIT, runs_before: 0 }
}

fn scarce(runs_before: usize) -> Worst {
    Worst { deliverers: 6, paired: false, kinds: OWN, most_lots: 150_000, step: 1, runs_before }
}

fn run(name: &'static str, worst: Worst) -> Case {
    let r = &mut Random::new(1);
    let (opening, book) = before_run(r, &worst);
    let call = sample::run(r, &opening);
    check(name, &worst, &call, &book);
    Case { name, book, call }
}

/// The run has as many matches as a run can, all covered, all short or all forced.
fn check(name: &str, worst: &Worst, call: &Call, book: &[u64]) {
    let mut made = call.clone();
    let reply = Reference.make(&mut made, &mut book.to_vec());
    let matches = made.entries(reply).0;
    assert_eq!(matches.len(), MOST_MATCHES, "{name}: {reply}");
    let short = matches.iter().filter(|entry| entry.covered < entry.matched).count();
    let forced = matches.iter().filter(|entry| entry.forced_lots > 0).count();
    match worst.runs_before {
        0 => assert_eq!(short, 0, "{name}"),
        1 => assert_eq!(short, MOST_MATCHES, "{name}"),
        _ => assert_eq!(forced, MOST_MATCHES, "{name}"),
    }
}

fn other(name: &'static str, day: Worst) -> Case {
    let r = &mut Random::new(2);
    let (opening, mut book) = before_run(r, &day);
    let all: Vec<u64> = (0..BONDS).collect();
    let call = match name {
        "trade" => Call::Trade { seller: 0, buyer: PEOPLE - 1, basket: BASKETS as u64 - 1, yen: 1_000_000 },
        "notice of 32 issues" => Call::Notice { participant: 5, issues: all.clone(), lots: all },
        "open" => Call::Open(opening),
        "close" => {
            (0..MOST_RUNS).for_each(|_| accepted(&sample::run(r, &opening), &mut book));
            sample::close(&opening)
        }
        // the first check after soundness refuses
        "soundness" => Call::Trade { seller: PEOPLE, buyer: 0, basket: 0, yen: 1 },
        _ => panic!("no case {name}"),
    };
    Case { name, book, call }
}

/// The day up to the run.
fn before_run(r: &mut Random, worst: &Worst) -> (Opening, Vec<u64>) {
    let opening = opening(r, worst);
    let mut book = vec![0; LENGTH];
    accepted(&Call::Open(opening.clone()), &mut book);
    traded(r, worst, &mut book);
    for _ in 0..worst.runs_before {
        accepted(&sample::run(r, &opening), &mut book);
    }
    notified(r, worst, &mut book);
    (opening, book)
}

/// The days are made by the reference, so that callgrind counts one call of a side and no other.
fn accepted(call: &Call, book: &mut [u64]) {
    let reply = Reference.make(&mut call.clone(), book);
    assert!(!matches!(reply, Reply::Refused(_)), "{reply}: {call}");
}

fn opening(r: &mut Random, worst: &Worst) -> Opening {
    let mut opening = sample::largest(r);
    for issue in 0..MOST_ISSUES {
        let mut terms = sample::at_par(worst.kinds[issue % worst.kinds.len()]);
        [terms[PRICE], terms[COUPON], terms[DAYS]] = [r.between(9_000, 11_000), r.between(100, 2_000), r.between(1, 180)];
        opening.terms[entry(TERM, issue)].copy_from_slice(&terms);
    }
    opening.receipts.fill(NOTICE);
    opening.pairs.fill(u64::from(worst.paired));
    for basket in 0..BASKETS {
        (0..MOST_PARTICIPANTS).for_each(|p| opening.pairs[Sizes::LARGEST.pair(basket, p, p)] = 0);
    }
    opening
}

/// Positions of which no two are equal, so that a basket has 11 matches.
fn traded(r: &mut Random, worst: &Worst, book: &mut [u64]) {
    for basket in 0..BASKETS as u64 {
        for seller in 0..worst.deliverers {
            for buyer in worst.deliverers..PEOPLE {
                accepted(&Call::Trade { seller, buyer, basket, yen: r.between(1_000_000_000, 90_000_000_000) }, book);
            }
        }
    }
}

fn notified(r: &mut Random, worst: &Worst, book: &mut [u64]) {
    for participant in 0..PEOPLE {
        let lots = (0..BONDS).map(|_| r.between(worst.most_lots / 2, worst.most_lots) / worst.step * worst.step).collect();
        accepted(&Call::Notice { participant, issues: (0..BONDS).collect(), lots }, book);
    }
}
