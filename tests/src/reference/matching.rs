//! Who delivers how much to whom in a basket.

use super::Day;
use std::cmp::Reverse;

#[derive(Clone)]
pub struct Matched {
    pub deliverer: usize,
    pub receiver: usize,
    pub amount: i128,
    pub preferential: bool,
}

/// Matches the smaller of the two positions left, if one is to deliver and the other to receive.
fn meet(left: &mut [i128], deliverer: usize, receiver: usize, preferential: bool) -> Option<Matched> {
    let amount = left[deliverer].min(-left[receiver]);
    (amount > 0).then(|| {
        left[deliverer] -= amount;
        left[receiver] += amount;
        Matched { deliverer, receiver, amount, preferential }
    })
}

/// The matches of a basket in the order in which they are filled.
pub fn matches(day: &Day, basket: usize, draw: &[usize]) -> Vec<Matched> {
    let mut left = day.positions[basket].clone();
    let mut all = vec![];
    if day.runs == 0 {
        for deliverer in 0..day.participants {
            for receiver in 0..day.participants {
                if day.yesterday[basket][deliverer][receiver] == 1 {
                    all.extend(meet(&mut left, deliverer, receiver, true));
                }
            }
        }
    }
    let mut deliverers: Vec<usize> = (0..day.participants).filter(|&p| left[p] > 0).collect();
    deliverers.sort_by_key(|&p| (Reverse(left[p]), p));
    for deliverer in deliverers {
        let mut drawn: Vec<Matched> = draw.iter().filter_map(|&receiver| meet(&mut left, deliverer, receiver, false)).collect();
        // a stable sort: ties stay in drawn order
        drawn.sort_by_key(|matched| Reverse(matched.amount));
        all.extend(drawn);
    }
    all
}
