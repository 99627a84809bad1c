//! Random memory: books of random cells, sound books with some cells changed, wrong lengths, empty lists, numbers at and beyond every bound.
//! No call may fault, every reply and cell is the reference's, and a refused call changes nothing. `random_memory SEED SIZE`: the size counts calls.

use allocation_tests::calls::{Call, Opening};
use allocation_tests::compare::agreed;
use allocation_tests::layout::{position, positions, Sizes, CODES, LENGTH, POSITIONS, TRADES};
use allocation_tests::names::TABLES;
use allocation_tests::paper::{BASKETS, MOST_PARTICIPANTS, MOST_TRADES, POSITION};
use allocation_tests::random::{seed_and_size, Random};
use allocation_tests::replies::Replies;
use allocation_tests::sample::{self, near_bound, Kind, KINDS};

/// So many calls bring up every refusal.
const ENOUGH: u64 = 100_000;

/// Changes a cell of any table, each as likely as the next.
fn change(r: &mut Random, book: &mut [u64]) {
    let places = r.choice(&TABLES).places(Sizes::LARGEST);
    let at = r.between(places.start as u64, places.end as u64 - 1) as usize;
    match r.below(8) {
        0 => book[at] ^= 1 << r.below(64),
        1 => book[at] = book[at].wrapping_add(1),
        2 => book[at] = book[at].wrapping_sub(1),
        3 => book[at] = book[at].wrapping_neg(),
        4 => book[at] = near_bound(r),
        5 => move_position(r, book),
        6 => book[TRADES] = MOST_TRADES,
        _ => positions_at_limit(r, book),
    }
}

/// Changes two positions of a basket and leaves its sum.
fn move_position(r: &mut Random, book: &mut [u64]) {
    let basket = r.below(BASKETS as u64) as usize;
    let (one, other) = (position(basket, 0), position(basket, 1));
    let yen = near_bound(r);
    book[one] = book[one].wrapping_add(yen);
    book[other] = book[other].wrapping_sub(yen);
}

/// Two positions of a basket as large as they may be, so that a trade of the one or the other is refused.
fn positions_at_limit(r: &mut Random, book: &mut [u64]) {
    let row = &mut book[positions(r.below(BASKETS as u64) as usize, MOST_PARTICIPANTS)];
    row.fill(0);
    (row[0], row[1]) = (POSITION, POSITION.wrapping_neg());
}

/// A book that stands, or what could be taken for one.
fn memory(r: &mut Random, standing: &[u64]) -> Vec<u64> {
    let mut book = standing.to_vec();
    match r.below(10) {
        0 => book.iter_mut().for_each(|cell| *cell = r.number()),
        1 => book.iter_mut().for_each(|cell| *cell = near_bound(r)),
        2 => {
            let length = r.choice(&[0, 1, CODES, POSITIONS, LENGTH - 1, LENGTH + 1, 2 * LENGTH]);
            book.resize(length, 0);
        }
        // as it stands
        3 => {}
        _ => {
            for _ in 0..r.between(1, 3) {
                change(r, &mut book);
            }
        }
    }
    // exactly as much memory as is lent, so that valgrind sees a step beyond it
    book.shrink_to_fit();
    book
}

fn call(r: &mut Random, kind: &Kind, day: &Opening) -> Call {
    let mut call = if r.one_in(10) { Call::Open(day.clone()) } else { sample::any_call(r, kind, day) };
    if r.one_in(2) {
        sample::spoil(r, &mut call);
    }
    call
}

fn main() {
    let (seed, calls) = seed_and_size("random memory", 1, 1_000_000);
    let r = &mut Random::new(seed);
    let mut replies = Replies::default();
    while replies.calls < calls {
        let kind = &KINDS[r.below(KINDS.len() as u64) as usize];
        let day = sample::opening(r, kind);
        let mut standing = vec![0; LENGTH];
        let mut right = vec![Call::Open(day.clone())];
        right.extend(sample::day(r, kind, &day).into_iter().take(100));
        for call_of_day in right {
            agreed(&call_of_day, &mut standing, seed);
            for _ in 0..3 {
                let mut book = memory(r, &standing);
                replies.count(agreed(&call(r, kind, &day), &mut book, seed).0);
            }
        }
    }
    println!(
        "random memory: {} calls, {} accepted, {}; no fault, and nothing changed by a refusal",
        replies.calls,
        replies.accepted(),
        replies.told()
    );
    if calls >= ENOUGH {
        replies.check();
    } else {
        println!("random memory: fewer than {ENOUGH} calls, so that every refusal comes up is not asked");
    }
}
