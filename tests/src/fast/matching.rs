//! The matches of a basket, in the order in which they are filled.

use crate::layout::pair;
use crate::paper::MOST_PARTICIPANTS;

/// A participant's number takes so many bits of a key.
const BITS: u32 = 4;
const MASK: i64 = (1 << BITS) - 1;

#[derive(Clone, Copy, Default)]
pub struct Matched {
    pub deliverer: usize,
    pub receiver: usize,
    pub amount: u64,
    pub preferential: bool,
}

/// A match ends one position at least, and the last one two.
#[derive(Default)]
pub struct Plan {
    matches: [Matched; MOST_PARTICIPANTS - 1],
    count: usize,
}

impl Plan {
    pub fn matches(&self) -> &[Matched] {
        &self.matches[..self.count]
    }

    fn add(&mut self, matched: Matched) {
        self.matches[self.count] = matched;
        self.count += 1;
    }

    /// Places a drawn match after the deliverer's own of the same or a larger amount.
    fn place(&mut self, first: usize, matched: Matched) {
        let mut at = self.count;
        while at > first && self.matches[at - 1].amount < matched.amount {
            self.matches[at] = self.matches[at - 1];
            at -= 1;
        }
        self.matches[at] = matched;
        self.count += 1;
    }
}

/// The positions are those of the day's participants; the marks are the basket's of yesterday, where they count.
pub fn plan(positions: &[u64], marks: Option<&[u64]>, draw: &[u64]) -> Plan {
    let n = positions.len();
    let mut left = [0i64; MOST_PARTICIPANTS];
    for (to, &yen) in left.iter_mut().zip(positions) {
        *to = yen as i64;
    }
    let mut plan = Plan::default();
    if let Some(marks) = marks {
        for deliverer in 0..n {
            for receiver in 0..n {
                if left[deliverer] <= 0 {
                    break;
                }
                if marks[pair(deliverer, receiver)] == 1 && left[receiver] < 0 {
                    let amount = left[deliverer].min(-left[receiver]);
                    left[deliverer] -= amount;
                    left[receiver] += amount;
                    plan.add(Matched { deliverer, receiver, amount: amount as u64, preferential: true });
                }
            }
        }
    }
    // the larger position and then the smaller number is the larger key
    let mut keys = [0; MOST_PARTICIPANTS];
    let mut deliverers = 0;
    for p in (0..n).filter(|&p| left[p] > 0) {
        keys[deliverers] = left[p] << BITS | (MASK - p as i64);
        deliverers += 1;
    }
    keys[..deliverers].sort_unstable();
    // receivers are met to the end in the drawn order, so those before the next are done
    let mut next = 0;
    for key in keys[..deliverers].iter().rev() {
        let deliverer = (MASK - (key & MASK)) as usize;
        let first = plan.count;
        while left[deliverer] > 0 {
            let receiver = draw[next] as usize;
            if left[receiver] >= 0 {
                next += 1;
                continue;
            }
            let amount = left[deliverer].min(-left[receiver]);
            left[deliverer] -= amount;
            left[receiver] += amount;
            plan.place(first, Matched { deliverer, receiver, amount: amount as u64, preferential: false });
        }
    }
    plan
}
