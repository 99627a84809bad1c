//! A run: basket by basket matched, filled and booked.

use super::filling::{allocable, fill, Filled, Stock};
use super::matching::{matches, Matched};
use super::Day;
use crate::calls::Reply;
use crate::paper::{BASKETS, LINE, MATCH};

/// The two lists of a run, an entry after the other.
#[derive(Default)]
pub struct Lists {
    matches: Vec<[u64; MATCH]>,
    lines: Vec<[u64; LINE]>,
}

impl Lists {
    pub fn write(&self, matches: &mut [u64], lines: &mut [u64]) -> Reply {
        let (matched, lined) = (self.matches.concat(), self.lines.concat());
        matches[..matched.len()].copy_from_slice(&matched);
        lines[..lined.len()].copy_from_slice(&lined);
        Reply::Ran { matches: self.matches.len(), lines: self.lines.len() }
    }

    fn list(&mut self, basket: usize, matched: &Matched, filled: &Filled, lots: &[i128]) {
        let number = self.matches.len() as u64;
        let (issue, forced) = filled.forced.unwrap_or((0, 0));
        let parties = [basket, matched.deliverer, matched.receiver].map(|n| n as u64);
        let amounts = [matched.amount, filled.covered].map(|yen| yen as u64);
        self.matches.push([parties[0], parties[1], parties[2], amounts[0], amounts[1], issue as u64, forced as u64]);
        let taken = lots.iter().enumerate().filter(|(_, &lots)| lots > 0);
        self.lines.extend(taken.map(|(issue, &lots)| [number, issue as u64, lots as u64]));
    }
}

/// Positions less the covered yen, the tally, and today's pair.
fn post(day: &mut Day, basket: usize, matched: &Matched, covered: i128, lots: &[i128]) {
    let (deliverer, receiver) = (matched.deliverer, matched.receiver);
    day.positions[basket][deliverer] -= covered;
    day.positions[basket][receiver] += covered;
    for (issue, lots) in lots.iter().enumerate() {
        day.tally[deliverer][issue] += lots;
        day.tally[receiver][issue] -= lots;
    }
    if covered > 0 {
        day.today[basket][deliverer][receiver] = 1;
    }
}

pub fn run(day: &mut Day, draw: &[usize]) -> Lists {
    let none = vec![0; day.issues.len()];
    let mut stocks: Vec<Stock> =
        (0..day.participants).map(|p| Stock { allocable: allocable(day, p), used: none.clone(), used_before: none.clone() }).collect();
    let mut lists = Lists::default();
    for basket in 0..BASKETS {
        for stock in &mut stocks {
            stock.used_before = stock.used.clone();
        }
        for matched in matches(day, basket, draw) {
            let stock = &mut stocks[matched.deliverer];
            let filled = fill(day, basket, &matched, stock);
            let mut lots = filled.lots.clone();
            for (used, lots) in stock.used.iter_mut().zip(&lots) {
                *used += lots;
            }
            if let Some((issue, forced)) = filled.forced {
                lots[issue] += forced;
            }
            lists.list(basket, &matched, &filled, &lots);
            post(day, basket, &matched, filled.covered, &lots);
        }
    }
    day.notices.iter_mut().for_each(|row| row.fill(0));
    day.runs += 1;
    lists
}
