//! A run on a sound book.

use super::filling::{fill, Filled};
use super::issues::{issues_of, Issues};
use super::matching::{plan, Matched, Plan};
use super::order::{forced_issue, order_of, Order};
use super::stock::{stock_of, Stock, NO_STOCK};
use super::Book;
use crate::calls::Reply;
use crate::layout::{entry, mark, position, positions, row, square, NOTICES, PAIRS, PARTICIPANTS, RUNS, TALLY, TODAY};
use crate::paper::*;

/// The two lists, and how much of them is written.
struct Lists<'a> {
    matches: &'a mut [u64],
    lines: &'a mut [u64],
    matched: usize,
    lined: usize,
}

impl Lists<'_> {
    fn list(&mut self, basket: usize, matched: &Matched, filled: &Filled, lots: &[u64]) {
        let [basket, deliverer, receiver, issue] = [basket, matched.deliverer, matched.receiver, filled.forced_issue].map(|number| number as u64);
        let numbers = [basket, deliverer, receiver, matched.amount, filled.covered, issue, filled.forced_lots];
        self.matches[entry(MATCH, self.matched)].copy_from_slice(&numbers);
        for (issue, &lots) in lots.iter().enumerate().filter(|(_, &lots)| lots > 0) {
            self.lines[entry(LINE, self.lined)].copy_from_slice(&[self.matched as u64, issue as u64, lots]);
            self.lined += 1;
        }
        self.matched += 1;
    }
}

fn post(book: &mut Book, basket: usize, matched: &Matched, covered: u64, lots: &[u64]) {
    let (deliverer, receiver) = (matched.deliverer, matched.receiver);
    let (from, to) = (position(basket, deliverer), position(basket, receiver));
    book[from] = book[from].wrapping_sub(covered);
    book[to] = book[to].wrapping_add(covered);
    for (tally, lots) in book[row(TALLY, deliverer, lots.len())].iter_mut().zip(lots) {
        *tally = tally.wrapping_add(*lots);
    }
    for (tally, lots) in book[row(TALLY, receiver, lots.len())].iter_mut().zip(lots) {
        *tally = tally.wrapping_sub(*lots);
    }
    if covered > 0 {
        book[mark(TODAY, basket, deliverer, receiver)] = 1;
    }
}

/// A basket's matches, filled, listed and posted one after the other.
fn run_basket(book: &mut Book, basket: usize, issues: &Issues, plan: &Plan, stocks: &mut [Stock], lists: &mut Lists) {
    let third = book[RUNS] + 1 == MOST_RUNS;
    let mut sorted_for = None;
    let mut order = Order::default();
    for matched in plan.matches() {
        let (deliverer, preferential) = (matched.deliverer, matched.preferential);
        if !stocks[deliverer].loaded {
            stocks[deliverer] = stock_of(book, issues, deliverer);
        }
        let stock = &mut stocks[deliverer];
        if sorted_for != Some((deliverer, preferential)) {
            let notified = &book[row(NOTICES, deliverer, issues.count)];
            order = order_of(issues.in_basket[basket], &stock.usable, |i| if preferential { notified[i] } else { stock.unspent[i] });
            sorted_for = Some((deliverer, preferential));
        }
        let forced = || forced_issue(book, issues, basket, deliverer);
        let filled = fill(&issues.rates, order.issues(), &stock.usable, matched, if third { Some(&forced) } else { None });
        stock.use_up(&filled.lots);
        let mut lots = filled.lots;
        lots[filled.forced_issue] += filled.forced_lots;
        lists.list(basket, matched, &filled, &lots[..issues.count]);
        post(book, basket, matched, filled.covered, &lots[..issues.count]);
    }
    plan.matches().iter().for_each(|matched| stocks[matched.deliverer].end_basket());
}

pub fn run(book: &mut Book, draw: &[u64], matches: &mut [u64], lines: &mut [u64]) -> Reply {
    let n = book[PARTICIPANTS] as usize;
    let issues = issues_of(book);
    let mut stocks = [NO_STOCK; MOST_PARTICIPANTS];
    let mut lists = Lists { matches, lines, matched: 0, lined: 0 };
    for basket in 0..BASKETS {
        let row = &book[positions(basket, n)];
        if row.iter().any(|&yen| yen != 0) {
            let yesterday = (book[RUNS] == 0).then(|| &book[square(PAIRS, basket)]);
            let plan = plan(row, yesterday, draw);
            run_basket(book, basket, &issues, &plan, &mut stocks, &mut lists);
        }
    }
    for p in 0..n {
        book[row(NOTICES, p, issues.count)].fill(0);
    }
    book[RUNS] += 1;
    Reply::Ran { matches: lists.matched, lines: lists.lined }
}
