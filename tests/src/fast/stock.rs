//! What a deliverer may use in a run.

use super::filling::Row;
use super::issues::Issues;
use super::Book;
use crate::layout::{row, NOTICES, RECEIPTS, RUNS};
use crate::paper::MOST_ISSUES;

/// A deliverer's lots by issue.
#[derive(Clone, Copy)]
pub struct Stock {
    pub usable: Row,
    /// notified lots less those used in earlier baskets
    pub unspent: Row,
    used: Row,
    pub loaded: bool,
}

pub const NO_STOCK: Stock = Stock { usable: [0; MOST_ISSUES], unspent: [0; MOST_ISSUES], used: [0; MOST_ISSUES], loaded: false };

impl Stock {
    pub fn use_up(&mut self, lots: &Row) {
        for (i, &lots) in lots.iter().enumerate() {
            self.usable[i] -= lots;
            self.used[i] += lots;
        }
    }

    pub fn end_basket(&mut self) {
        for (unspent, used) in self.unspent.iter_mut().zip(&mut self.used) {
            *unspent -= std::mem::take(used);
        }
    }
}

pub fn stock_of(book: &Book, issues: &Issues, participant: usize) -> Stock {
    let mut stock = Stock { loaded: true, ..NO_STOCK };
    let notified = &book[row(NOTICES, participant, issues.count)];
    let scheduled = &book[row(RECEIPTS, participant, issues.count)];
    for i in 0..issues.count {
        stock.unspent[i] = notified[i];
        stock.usable[i] = match book[RUNS] {
            0 if issues.redeemed >> i & 1 == 0 => notified[i].min(scheduled[i]),
            1 | 2 if issues.unmarked >> i & 1 == 1 => notified[i],
            _ => 0,
        };
    }
    stock
}
