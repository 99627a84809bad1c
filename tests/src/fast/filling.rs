//! What a match is filled with, by closed forms on rates: a lot's value in parts of a yen, 730 to one.

use super::matching::Matched;
use crate::paper::{INTEREST_DIVISOR, MOST_ISSUES, SHORTAGE, TARGET, UNIT};

pub type Row = [u64; MOST_ISSUES];

pub fn value(rate: u64, lots: u64) -> u64 {
    lots * rate / INTEREST_DIVISOR
}

/// The fewest lots of that value or more.
fn fewest(rate: u64, yen: u64) -> u64 {
    (INTEREST_DIVISOR * yen).div_ceil(rate)
}

/// The most lots of that value or less.
fn most(rate: u64, yen: u64) -> u64 {
    (INTEREST_DIVISOR * (yen + 1) - 1) / rate
}

/// The lots of a match, and what they are worth.
pub struct Filling<'a> {
    pub lots: Row,
    rates: &'a Row,
    worth: u64,
}

impl<'a> Filling<'a> {
    fn new(rates: &'a Row) -> Self {
        Filling { lots: [0; MOST_ISSUES], rates, worth: 0 }
    }

    /// All that is offered, or the fewest lots that reach the amount; tells whether it is reached.
    fn take(&mut self, issue: usize, offered: u64, amount: u64) -> bool {
        let (rate, have) = (self.rates[issue], self.lots[issue]);
        let before = value(rate, have);
        let after = value(rate, have + offered);
        if self.worth + (after - before) < amount {
            self.lots[issue] = have + offered;
            self.worth += after - before;
            return false;
        }
        self.lots[issue] = fewest(rate, before + (amount - self.worth)).max(have);
        true
    }
}

fn fill_preferential<'a>(rates: &'a Row, order: &[u8], usable: &Row, amount: u64) -> Filling<'a> {
    let mut filling = Filling::new(rates);
    for &issue in order {
        if filling.take(issue.into(), usable[issue as usize], amount) {
            break;
        }
    }
    filling
}

fn fill_drawn<'a>(rates: &'a Row, order: &[u8], usable: &Row, amount: u64) -> Filling<'a> {
    let mut filling = Filling::new(rates);
    let target = amount / TARGET * TARGET;
    for issue in order.iter().map(|&i| i as usize) {
        let room = target - filling.worth;
        // a division only where a unit fits
        if usable[issue] >= UNIT && value(rates[issue], UNIT) <= room {
            let lots = most(rates[issue], room).min(usable[issue]) / UNIT * UNIT;
            filling.lots[issue] = lots;
            filling.worth += value(rates[issue], lots);
        }
    }
    for issue in order.iter().map(|&i| i as usize) {
        if filling.take(issue, usable[issue] % UNIT, amount) {
            return filling;
        }
    }
    for issue in order.iter().map(|&i| i as usize) {
        if filling.take(issue, usable[issue] - filling.lots[issue], amount) {
            return filling;
        }
    }
    filling
}

/// With no forced issue both its number and its lots are 0.
pub struct Filled {
    pub covered: u64,
    /// without forced ones
    pub lots: Row,
    pub forced_issue: usize,
    pub forced_lots: u64,
}

impl Filled {
    fn unforced(covered: u64, lots: Row) -> Self {
        Filled { covered, lots, forced_issue: 0, forced_lots: 0 }
    }
}

/// All usable lots, and the fewest further ones of the forced issue.
fn fill_forced(rates: &Row, order: &[u8], usable: &Row, amount: u64, short: u64, issue: usize) -> Filled {
    let mut lots = [0; MOST_ISSUES];
    for &issue in order {
        lots[issue as usize] = usable[issue as usize];
    }
    let reach = value(rates[issue], lots[issue]) + short;
    Filled { covered: amount, lots, forced_issue: issue, forced_lots: fewest(rates[issue], reach) - lots[issue] }
}

/// In the third run the forced issue is told where it is asked for.
pub fn fill(rates: &Row, order: &[u8], usable: &Row, matched: &Matched, forced: Option<&dyn Fn() -> usize>) -> Filled {
    let filling = if matched.preferential { fill_preferential } else { fill_drawn };
    let amount = matched.amount;
    let worth: u64 = order.iter().map(|&i| value(rates[i as usize], usable[i as usize])).sum();
    if worth >= amount {
        return Filled::unforced(amount, filling(rates, order, usable, amount).lots);
    }
    let short = amount - worth;
    if let Some(forced) = forced {
        return fill_forced(rates, order, usable, amount, short, forced());
    }
    let covered = amount.saturating_sub(short.next_multiple_of(SHORTAGE));
    let lots = if covered > 0 { filling(rates, order, usable, covered).lots } else { [0; MOST_ISSUES] };
    Filled::unforced(covered, lots)
}
