//! The value of lots, and searches on it.

use super::{Day, Issue};
use crate::paper::{COUPON, DAYS, INTEREST_DIVISOR, PRICE, PRICE_FACTOR};

/// "5 × n × price, plus n × coupon × days ÷ 730 rounded down once"
fn value(issue: &Issue, lots: i128) -> i128 {
    let [price, coupon, days] = [PRICE, COUPON, DAYS].map(|term| issue.terms[term]);
    i128::from(PRICE_FACTOR) * lots * price + lots * coupon * days / i128::from(INTEREST_DIVISOR)
}

/// The value of lots at these terms, for those who make up days.
pub fn value_at(terms: &[u64], lots: u64) -> u64 {
    value(&super::book::issue(&[], terms), lots.into()) as u64
}

/// "Each issue within a match is valued on its total lots in that match."
pub fn worth(day: &Day, lots: &[i128]) -> i128 {
    day.issues.iter().zip(lots).map(|(issue, &lots)| value(issue, lots)).sum()
}

/// What the lots would be worth with some more of one issue.
pub fn with_more<'a>(day: &'a Day, lots: &[i128], issue: usize) -> impl Fn(i128) -> i128 + 'a {
    let have = lots[issue];
    let others = worth(day, lots) - value(&day.issues[issue], have);
    move |more| others + value(&day.issues[issue], have + more)
}

/// The smallest number from 0 that passes a test, where every larger one passes too.
pub fn least(passes: impl Fn(i128) -> bool) -> i128 {
    let mut high = 1;
    while !passes(high) {
        high *= 2;
    }
    let mut low = 0;
    while low < high {
        let middle = (low + high) / 2;
        if passes(middle) {
            high = middle;
        } else {
            low = middle + 1;
        }
    }
    low
}
