//! The library's time held to the fast version's on worst-case days.
//! `bench` measures and prints a table; `bench names` lists the cases, each after the call that it makes; `bench CASE SIDE` makes one call, for
//! callgrind to count.

use allocation_tests::calls::{Allocation, Call, Reply};
use allocation_tests::compare::{hold, made};
use allocation_tests::fast::{Fast, Measured};
use allocation_tests::layout::LENGTH;
use allocation_tests::library::Library;
use allocation_tests::random::Random;
use allocation_tests::sample::{self, KINDS};
use allocation_tests::worst::{case, Case, NAMES};
use std::hint::black_box;
use std::time::Instant;

const ROUNDS: usize = 4_000;
/// so many random days of every kind, before anything is measured
const DAYS: u64 = 40;

/// What is measured, by the name of its side.
type Side = (&'static str, fn(&mut Call, &mut [u64]) -> Reply);
const SIDES: [Side; 2] = [("library", |call, book| Library.make(call, book)), ("fast", fast)];

fn fast(call: &mut Call, book: &mut [u64]) -> Reply {
    Fast.measured(call, book).expect("a call that is measured")
}

/// The fast version has to answer as the library does, which answers as the reference does. The book becomes what both leave.
fn checked(call: &Call, book: &mut Vec<u64>, seed: u64) {
    let [library, fast] = SIDES.map(|(name, make)| made(name, call, book, make));
    hold(&library, &fast, call, seed);
    *book = library.book;
}

/// Random days through the fast version: one that left out a check or a case would be no measure.
fn check_days() {
    for (seed, kind) in (0..DAYS).flat_map(|seed| KINDS.iter().map(move |kind| (seed, kind))) {
        let r = &mut Random::new(seed);
        let opening = sample::opening(r, kind);
        let mut book = vec![0; LENGTH];
        checked(&Call::Open(opening.clone()), &mut book, seed);
        sample::day(r, kind, &opening).iter().for_each(|call| checked(call, &mut book, seed));
    }
}

/// Nanoseconds of one call on the case's book.
fn time((_, make): Side, case: &Case, call: &mut Call, book: &mut [u64]) -> u64 {
    book.copy_from_slice(&case.book);
    let start = Instant::now();
    let reply = make(call, book);
    let time = start.elapsed().as_nanos() as u64;
    black_box(reply);
    time
}

fn median(times: &mut [u64]) -> u64 {
    times.sort();
    times[times.len() / 2]
}

/// The medians of the library and of the fast version, measured by turns.
fn medians(case: &Case) -> [u64; 2] {
    checked(&case.call, &mut case.book.clone(), 0);
    let (mut book, mut call) = (case.book.clone(), case.call.clone());
    let mut times = [vec![], vec![]];
    for _ in 0..ROUNDS {
        for (times, side) in times.iter_mut().zip(SIDES) {
            times.push(time(side, case, &mut call, &mut book));
        }
    }
    times.map(|mut times| median(&mut times))
}

fn measure() {
    check_days();
    println!("| Call | Library, ns | Fast reference, ns | Ratio |\n|---|---|---|---|");
    for case in NAMES.map(|(_, name)| case(name)) {
        let [library, fast] = medians(&case);
        println!("| {} | {library} | {fast} | {:.2} |", case.name, library as f64 / fast as f64);
    }
}

fn main() {
    let words: Vec<String> = std::env::args().skip(1).collect();
    match words.iter().map(String::as_str).collect::<Vec<_>>()[..] {
        [] => measure(),
        ["names"] => NAMES.iter().for_each(|(call, name)| println!("{call}:{name}")),
        [name, side] => {
            let mut case = case(NAMES.iter().find(|known| known.1 == name).expect("a case").1);
            let (_, make) = SIDES.into_iter().find(|(name, _)| *name == side).expect("library or fast");
            make(&mut case.call, &mut case.book);
        }
        _ => panic!("bench, bench names, or bench CASE SIDE"),
    }
}
