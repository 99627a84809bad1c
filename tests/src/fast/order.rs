//! The order in which a match goes through the issues, and the forced issue.

use super::filling::Row;
use super::issues::{members, Issues};
use super::Book;
use crate::layout::{row, NOTICES};
use crate::paper::{FIFTH, MOST_ISSUES};

/// An issue's number takes so many bits of a key.
const BITS: u32 = 5;
const MASK: u64 = (1 << BITS) - 1;

/// The usable issues of a set from the larger key, ties to the smaller number.
#[derive(Default)]
pub struct Order {
    issues: [u8; MOST_ISSUES],
    count: usize,
}

impl Order {
    pub fn issues(&self) -> &[u8] {
        &self.issues[..self.count]
    }
}

pub fn order_of(set: u32, usable: &Row, keys: impl Fn(usize) -> u64) -> Order {
    let mut sorted = [0; MOST_ISSUES];
    let mut count = 0;
    for i in members(set).filter(|&i| usable[i] > 0) {
        sorted[count] = keys(i) << BITS | (MASK - i as u64);
        count += 1;
    }
    sorted[..count].sort_unstable_by(|a, b| b.cmp(a));
    Order { issues: sorted.map(|key| (MASK - (key & MASK)) as u8), count }
}

pub fn forced_issue(book: &Book, issues: &Issues, basket: usize, deliverer: usize) -> usize {
    let notified = &book[row(NOTICES, deliverer, issues.count)];
    let unmarked = issues.unmarked & issues.in_basket[basket];
    let mut most = (0, 0);
    for i in members(unmarked) {
        if notified[i] > most.1 {
            most = (i, notified[i]);
        }
    }
    if most.1 > 0 {
        return most.0;
    }
    let ten_year = unmarked & issues.ten_year;
    let mut set = if ten_year == 0 { unmarked } else { ten_year };
    if set.count_ones() < FIFTH as u32 {
        return set.trailing_zeros() as usize;
    }
    for _ in 1..FIFTH {
        set ^= 1 << set.ilog2();
    }
    set.ilog2() as usize
}
