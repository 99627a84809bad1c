//! Calls that are given something wrong, or something at a bound.

use crate::calls::{Call, Opening};
use crate::layout::{LINES, MATCHES};
use crate::paper::*;
use crate::random::Random;

/// The bounds of document 01 and of the machine: with their neighbours, and with either sign, they are the numbers to try.
const BOUNDS: [u64; 24] = [
    0,
    FEWEST_PARTICIPANTS as u64,
    most(KIND),
    BASKETS as u64,
    MOST_PARTICIPANTS as u64 - 1,
    MOST_PARTICIPANTS as u64,
    MOST_ISSUES as u64 - 1,
    MOST_ISSUES as u64,
    MOST_MATCHES as u64,
    most(DAYS),
    least(PRICE),
    MOST_LINES as u64,
    MOST_TRADES,
    most(COUPON),
    most(PRICE),
    NOTICE,
    TALLY_A_RUN,
    2 * TALLY_A_RUN,
    3 * TALLY_A_RUN,
    AMOUNT,
    POSITION,
    1 << 32,
    1 << 63,
    u64::MAX,
];

pub fn near_bound(r: &mut Random) -> u64 {
    let number = r.choice(&BOUNDS).wrapping_add(r.below(3)).wrapping_sub(1);
    if r.one_in(4) {
        number.wrapping_neg()
    } else {
        number
    }
}

fn change_length<T: Copy + Default>(r: &mut Random, list: &mut Vec<T>) {
    match r.below(4) {
        0 => list.clear(),
        1 => list.push(T::default()),
        2 => list.truncate(list.len() / 2),
        _ => drop(list.pop()),
    }
}

/// Any item of a list, if it has one.
fn any_of<'a, T>(r: &mut Random, list: &'a mut [T]) -> Option<&'a mut T> {
    let place = r.below(list.len() as u64) as usize;
    list.get_mut(place)
}

fn change_cell(r: &mut Random, list: &mut [u64]) {
    if let Some(cell) = any_of(r, list) {
        *cell = near_bound(r);
    }
}

fn spoil_opening(r: &mut Random, o: &mut Opening) {
    match r.below(12) {
        0 => o.participants = near_bound(r),
        1 => o.issues = near_bound(r),
        2 => change_length(r, &mut o.codes),
        3 => change_length(r, &mut o.terms),
        4 => change_length(r, &mut o.receipts),
        5 => change_length(r, &mut o.pairs),
        6 => {
            if let Some(byte) = any_of(r, &mut o.codes) {
                *byte = r.choice(b"JP09AZaz@[/:\x00\xff");
            }
        }
        // no longer rising
        7 => {
            let turn = CODE.min(o.codes.len());
            o.codes.rotate_left(turn);
        }
        8 => change_cell(r, &mut o.terms),
        9 => change_cell(r, &mut o.receipts),
        10 => change_cell(r, &mut o.pairs),
        _ => {
            if let Some(oneself) = o.pairs.first_mut() {
                *oneself = 1;
            }
        }
    }
}

/// Gives the call something wrong, or something at a bound.
pub fn spoil(r: &mut Random, call: &mut Call) {
    match call {
        Call::Open(opening) => spoil_opening(r, opening),
        Call::Trade { seller, buyer, basket, yen } => match r.below(5) {
            0 => *seller = near_bound(r),
            1 => *buyer = near_bound(r),
            2 => *basket = near_bound(r),
            3 => *buyer = *seller,
            _ => *yen = near_bound(r),
        },
        Call::Notice { participant, issues, lots } => match r.below(7) {
            0 => *participant = near_bound(r),
            1 => change_length(r, issues),
            2 => change_length(r, lots),
            3 => change_cell(r, issues),
            4 => change_cell(r, lots),
            5 => {
                issues.extend(issues.first().copied());
                lots.extend(lots.first().copied());
            }
            _ => {
                issues.clear();
                lots.clear();
            }
        },
        Call::Run { draw, matches, lines } => match r.below(4) {
            0 => change_length(r, draw),
            1 => change_cell(r, draw),
            2 => matches.truncate(r.between(0, MATCHES as u64) as usize),
            _ => lines.truncate(r.between(LINES as u64 - 2, LINES as u64) as usize),
        },
        Call::Close { receipts, pairs } => {
            let list = if r.one_in(2) { receipts } else { pairs };
            // down to the length that is asked, or one below it
            list.truncate(list.len().saturating_sub(r.between(3, 4) as usize));
        }
    }
    if r.one_in(4) {
        spoil(r, call);
    }
}
