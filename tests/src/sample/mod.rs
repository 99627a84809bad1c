//! Random days of every kind, a list of calls each, and calls that are given something wrong.

mod calls;
mod kinds;
mod openings;
mod wrong;

use crate::calls::{Call, Opening};
use crate::paper::{AMOUNT, MOST_RUNS, MOST_TRADES};
use crate::random::Random;
use calls::trade_of;

pub use calls::{any_call, close, notice, run, trade, UNWRITTEN};
pub use kinds::{Kind, KINDS, LARGE};
pub use openings::{at_par, largest, opening};
pub use wrong::{near_bound, spoil};

/// So many trades between the same two that the position or the count passes its limit.
fn burst(r: &mut Random, kind: &Kind, day: &Opening) -> Vec<Call> {
    let Call::Trade { seller, buyer, basket, .. } = trade(r, kind, day) else { unreachable!() };
    let (times, yen) = if r.one_in(40) { (MOST_TRADES + 3, 1_000) } else { (r.between(9, 12), AMOUNT - r.below(2)) };
    vec![Call::Trade { seller, buyer, basket, yen }; times as usize]
}

/// Trades and notices for the coming run.
fn before_run(r: &mut Random, kind: &Kind, day: &Opening) -> Vec<Call> {
    let (trades, notices) = (r.below(kind.trades + 1), r.below(2 * day.participants));
    let mut calls: Vec<Call> = (0..trades).map(|_| trade(r, kind, day)).collect();
    if r.one_in(60) {
        calls.extend(burst(r, kind, day));
    }
    for _ in 0..notices {
        let notice = notice(r, kind, day);
        if r.one_in(6) {
            calls.extend(trade_of(r, day, &notice));
        }
        calls.push(notice);
    }
    calls
}

/// The calls of a day after its opening: mostly three runs and a close, sometimes in any order, some calls with something wrong before them.
pub fn day(r: &mut Random, kind: &Kind, opening: &Opening) -> Vec<Call> {
    let mut calls = vec![];
    for _ in 0..MOST_RUNS {
        calls.extend(before_run(r, kind, opening));
        calls.push(run(r, opening));
    }
    calls.push(close(opening));
    for _ in 0..r.below(3) {
        calls.push(any_call(r, kind, opening));
    }
    if r.one_in(6) {
        r.shuffle(&mut calls);
    }
    let mut all = vec![];
    for call in calls {
        if r.one_in(kind.wrong) {
            let mut wrong = if r.one_in(8) { Call::Open(opening.clone()) } else { call.clone() };
            spoil(r, &mut wrong);
            all.push(wrong);
        }
        all.push(call);
    }
    all
}
