//! The issues of a day as bit sets, a bit to an issue.

use super::filling::Row;
use super::sound::KINDS;
use super::Book;
use crate::layout::{all_terms, ISSUES};
use crate::paper::*;

/// What a run reads of the issues.
pub struct Issues {
    pub count: usize,
    pub rates: Row,
    pub in_basket: [u32; BASKETS],
    pub unmarked: u32,
    pub redeemed: u32,
    pub ten_year: u32,
}

pub fn issues_of(book: &Book) -> Issues {
    let count = book[ISSUES] as usize;
    let mut issues = Issues { count, rates: [0; MOST_ISSUES], in_basket: [0; BASKETS], unmarked: 0, redeemed: 0, ten_year: 0 };
    for (i, t) in book[all_terms(count)].chunks_exact(TERM).enumerate() {
        issues.rates[i] = PRICE_FACTOR * INTEREST_DIVISOR * t[PRICE] + t[COUPON] * t[DAYS];
        for (set, kinds) in issues.in_basket.iter_mut().zip(KINDS) {
            *set |= u32::from(kinds >> t[KIND] & 1) << i;
        }
        issues.unmarked |= u32::from(t[REDEEMED] | t[INTEREST] == 0) << i;
        issues.redeemed |= (t[REDEEMED] as u32) << i;
        issues.ten_year |= u32::from(t[KIND] == TEN_YEAR) << i;
    }
    issues
}

/// The numbers of a set, rising.
pub fn members(mut set: u32) -> impl Iterator<Item = usize> {
    std::iter::from_fn(move || {
        let next = set.trailing_zeros() as usize;
        (set != 0).then(|| {
            set &= set - 1;
            next
        })
    })
}
