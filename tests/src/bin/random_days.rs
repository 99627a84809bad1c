//! Random days of every kind through the reference and the library: every reply, list and cell of the book is compared.
//! `random_days SEED SIZE`: day k of seed s is day 0 of seed s + k.

use allocation_tests::calls::{Call, Reply};
use allocation_tests::compare::agreed;
use allocation_tests::layout::LENGTH;
use allocation_tests::random::{seed_and_size, Random};
use allocation_tests::replies::Replies;
use allocation_tests::sample::{self, KINDS};

/// So many days bring up every refusal and every sort of match.
const ENOUGH: u64 = 10_000;

/// What came up: replies by refusal, and matches by what they were filled with.
#[derive(Default)]
struct Seen {
    replies: Replies,
    matches: u64,
    short: u64,
    uncovered: u64,
    forced: u64,
}

impl Seen {
    /// Makes the call on every side, and counts what came of it.
    fn made(&mut self, call: &Call, book: &mut Vec<u64>, seed: u64) -> (Reply, Call) {
        let (reply, left) = agreed(call, book, seed);
        self.replies.count(reply);
        for entry in left.entries(reply).0 {
            self.matches += 1;
            self.short += u64::from(0 < entry.covered && entry.covered < entry.matched);
            self.uncovered += u64::from(entry.covered == 0);
            self.forced += u64::from(entry.forced_lots > 0);
        }
        (reply, left)
    }

    /// Days that bring up too little are no evidence.
    fn check(&self) {
        self.replies.check();
        assert!(self.short.min(self.uncovered).min(self.forced) > 0, "no match short, uncovered or forced");
    }
}

/// A day, and often the day after it.
fn day(seed: u64, seen: &mut Seen) {
    let r = &mut Random::new(seed);
    let kind = &KINDS[r.below(KINDS.len() as u64) as usize];
    let mut book = vec![0; LENGTH];
    let mut opening = sample::opening(r, kind);
    if r.one_in(20) {
        seen.made(&sample::any_call(r, kind, &opening), &mut book, seed);
    }
    loop {
        seen.made(&Call::Open(opening.clone()), &mut book, seed);
        let mut next = None;
        for call in sample::day(r, kind, &opening) {
            let (reply, left) = seen.made(&call, &mut book, seed);
            if matches!((&left, reply), (Call::Close { .. }, Reply::Accepted)) {
                next = Some(left);
            }
        }
        let Some(closed) = next.filter(|_| r.one_in(2)) else { return };
        opening.follow(&closed);
    }
}

fn main() {
    let (seed, days) = seed_and_size("random days", 1, 20_000);
    let mut seen = Seen::default();
    for k in 0..days {
        day(seed.wrapping_add(k), &mut seen);
    }
    println!(
        "random days: {} calls, {} matches ({} short, {} uncovered, {} forced), {}; library and reference agree",
        seen.replies.calls,
        seen.matches,
        seen.short,
        seen.uncovered,
        seen.forced,
        seen.replies.told()
    );
    if days >= ENOUGH {
        seen.check();
    } else {
        println!("random days: fewer than {ENOUGH}, so that every refusal comes up is not asked");
    }
}
