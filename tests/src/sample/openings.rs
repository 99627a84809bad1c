//! Random openings.

use super::kinds::{Kind, LARGE};
use crate::calls::Opening;
use crate::layout::Sizes;
use crate::paper::*;
use crate::random::Random;
use crate::reference::is_code;

fn code(r: &mut Random) -> Vec<u8> {
    let characters = b"0123456789ABCDEFGHIJKLMNOPQRSTUVWXYZ";
    let mut code = COUNTRY.to_vec();
    // as public codes, mostly digits
    code.extend((COUNTRY.len()..CODE - 1).map(|_| if r.one_in(3) { r.choice(characters) } else { r.choice(&characters[..10]) }));
    let check = (b'0'..=b'9').find(|&digit| is_code(&code.iter().chain([&digit]).map(|&byte| byte.into()).collect::<Vec<u64>>()));
    code.push(check.expect("one of ten digits is right"));
    code
}

/// At par: 100 yen per 100 face.
const PAR: u64 = 10_000;

/// The terms of an unmarked issue of a kind at par, without interest.
pub const fn at_par(kind: u64) -> [u64; TERM] {
    let mut terms = [0; TERM];
    terms[KIND] = kind;
    terms[PRICE] = PAR;
    terms
}

fn terms(r: &mut Random, kind: &Kind) -> [u64; TERM] {
    let [price, coupon, days] = [PRICE, COUPON, DAYS].map(|term| r.between(least(term), most(term)));
    [
        r.choice(kind.kinds),
        r.choice(&[PAR, PAR, PAR, PAR + 100, least(PRICE), most(PRICE), price]),
        r.choice(&[0, 0, 100, INTEREST_DIVISOR, most(COUPON), coupon]),
        r.choice(&[0, 1, 365, most(DAYS), days]),
        u64::from(r.one_in(kind.mark)),
        u64::from(r.one_in(kind.mark)),
    ]
}

/// Lots that are common in a day, or some of about that size.
pub fn lots(r: &mut Random, kind: &Kind) -> u64 {
    let common = r.choice(kind.lots);
    if r.one_in(3) {
        r.below(common + 2).min(NOTICE)
    } else {
        common
    }
}

pub fn opening(r: &mut Random, kind: &Kind) -> Opening {
    let participants = r.between(kind.participants.0, kind.participants.1);
    let issues = r.between(kind.issues.0, kind.issues.1);
    let mut codes: Vec<Vec<u8>> = vec![];
    while codes.len() < issues as usize {
        codes.push(code(r));
        codes.sort();
        codes.dedup();
    }
    let receipt = |r: &mut Random| if r.one_in(30) { RECEIPT } else { lots(r, kind) };
    let sizes = Sizes { participants: participants as usize, issues: issues as usize };
    Opening {
        participants,
        issues,
        codes: codes.concat(),
        pairs: pairs(r, kind, sizes),
        terms: (0..issues).flat_map(|_| terms(r, kind)).collect(),
        receipts: (0..sizes.receipts()).map(|_| receipt(r)).collect(),
    }
}

/// Pair marks, none of a participant with itself.
fn pairs(r: &mut Random, kind: &Kind, sizes: Sizes) -> Vec<u64> {
    let mut marks: Vec<u64> = (0..sizes.pairs()).map(|_| u64::from(r.one_in(kind.pair))).collect();
    for basket in 0..BASKETS {
        (0..sizes.participants).for_each(|p| marks[sizes.pair(basket, p, p)] = 0);
    }
    marks
}

/// An opening of the largest day.
pub fn largest(r: &mut Random) -> Opening {
    loop {
        let opening = opening(r, &LARGE);
        if opening.sizes() == Sizes::LARGEST {
            return opening;
        }
    }
}
