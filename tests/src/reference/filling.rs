//! What a match is filled with.

use super::matching::Matched;
use super::value::{least, with_more, worth};
use super::Day;
use crate::paper::{self, FIFTH, MOST_RUNS, REDEEMED, TEN_YEAR};
use std::cmp::Reverse;

const UNIT: i128 = paper::UNIT as i128;
const TARGET: i128 = paper::TARGET as i128;
const SHORTAGE: i128 = paper::SHORTAGE as i128;

/// What a deliverer has in a run: lots by issue.
#[derive(Clone)]
pub struct Stock {
    pub allocable: Vec<i128>,
    pub used: Vec<i128>,
    /// used in earlier baskets of this run
    pub used_before: Vec<i128>,
}

pub struct Filled {
    pub covered: i128,
    /// by issue, without forced ones
    pub lots: Vec<i128>,
    /// the issue and its lots
    pub forced: Option<(usize, i128)>,
}

/// "In run 1 it is the smaller of the notified lots and the scheduled receipt .. In runs 2 and 3 it is the notified lots".
pub fn allocable(day: &Day, participant: usize) -> Vec<i128> {
    let of = |i: usize| {
        let (issue, notified) = (&day.issues[i], day.notices[participant][i]);
        if day.runs == 0 {
            if issue.terms[REDEEMED] == 1 {
                0
            } else {
                notified.min(day.receipts[participant][i])
            }
        } else if issue.unmarked() {
            notified
        } else {
            0
        }
    };
    (0..day.issues.len()).map(of).collect()
}

/// "larger notified lots first .. For a drawn match the same, less lots used in earlier baskets of this run. Ties: smaller ISIN."
fn issue_order(day: &Day, matched: &Matched, stock: &Stock) -> Vec<usize> {
    let notified = &day.notices[matched.deliverer];
    let mut order: Vec<usize> = (0..day.issues.len()).collect();
    order.sort_by_key(|&i| Reverse(if matched.preferential { notified[i] } else { notified[i] - stock.used_before[i] }));
    order
}

/// Takes all that is offered of an issue, or the fewest lots that reach the amount; tells whether it is reached.
fn take(day: &Day, lots: &mut [i128], issue: usize, offered: i128, amount: i128) -> bool {
    let worth = with_more(day, lots, issue);
    let reached = worth(offered) >= amount;
    lots[issue] += if reached { least(|n| worth(n) >= amount) } else { offered };
    reached
}

/// "takes all that may be used, and ends with the fewest lots that reach the amount"
fn fill_preferential(day: &Day, order: &[usize], usable: &[i128], amount: i128) -> Vec<i128> {
    let mut lots = vec![0; usable.len()];
    for &issue in order {
        if take(day, &mut lots, issue, usable[issue], amount) {
            break;
        }
    }
    lots
}

/// "the most units of 100,000 lots that keep the match's value at or below the target"
fn take_units(day: &Day, lots: &mut [i128], issue: usize, usable: i128, target: i128) {
    let worth = with_more(day, lots, issue);
    let too_many = |units: i128| units * UNIT > usable || worth(units * UNIT) > target;
    lots[issue] += (least(too_many) - 1) * UNIT;
}

fn fill_drawn(day: &Day, order: &[usize], usable: &[i128], amount: i128) -> Vec<i128> {
    let mut lots = vec![0; usable.len()];
    for &issue in order {
        take_units(day, &mut lots, issue, usable[issue], amount / TARGET * TARGET);
    }
    for &issue in order {
        if take(day, &mut lots, issue, usable[issue] % UNIT, amount) {
            return lots;
        }
    }
    for &issue in order {
        let left = usable[issue] - lots[issue];
        if take(day, &mut lots, issue, left, amount) {
            return lots;
        }
    }
    lots
}

/// The issue of which run 3 takes what is missing.
fn forced_issue(day: &Day, basket: usize, deliverer: usize) -> usize {
    let notified = &day.notices[deliverer];
    let unmarked: Vec<usize> = (0..day.issues.len()).filter(|&i| day.issues[i].unmarked() && day.issues[i].is_in(basket)).collect();
    let most = unmarked.iter().copied().max_by_key(|&i| (notified[i], Reverse(i))).expect("a basket with a position has an unmarked issue");
    if notified[most] > 0 {
        return most;
    }
    let ten_year: Vec<usize> = unmarked.iter().copied().filter(|&i| day.issues[i].is_of(TEN_YEAR)).collect();
    let set = if ten_year.is_empty() { unmarked } else { ten_year };
    // "the fifth largest ISIN .. Fewer than five: the smallest"
    set[set.len().saturating_sub(FIFTH)]
}

pub fn fill(day: &Day, basket: usize, matched: &Matched, stock: &Stock) -> Filled {
    let usable: Vec<i128> = (0..day.issues.len()).map(|i| if day.issues[i].is_in(basket) { stock.allocable[i] - stock.used[i] } else { 0 }).collect();
    let order = issue_order(day, matched, stock);
    let fill_for = |amount| {
        let filling = if matched.preferential { fill_preferential } else { fill_drawn };
        filling(day, &order, &usable, amount)
    };

    let short = matched.amount - worth(day, &usable);
    if short <= 0 {
        return Filled { covered: matched.amount, lots: fill_for(matched.amount), forced: None };
    }
    if day.runs + 1 == MOST_RUNS {
        let issue = forced_issue(day, basket, matched.deliverer);
        let worth = with_more(day, &usable, issue);
        let further = least(|n| worth(n) >= matched.amount);
        return Filled { covered: matched.amount, lots: usable, forced: Some((issue, further)) };
    }
    let carried = SHORTAGE * least(|n| SHORTAGE * n >= short);
    let covered = matched.amount - carried.min(matched.amount);
    let lots = if covered > 0 { fill_for(covered) } else { vec![0; usable.len()] };
    Filled { covered, lots, forced: None }
}
