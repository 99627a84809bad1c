//! Random calls that are given nothing wrong.

use super::kinds::Kind;
use super::openings::lots;
use crate::calls::{Call, Opening};
use crate::layout::{entry, LINES, MATCHES};
use crate::paper::{AMOUNT, BASKETS, NOTICE, SHORTAGE, TERM};
use crate::random::Random;
use crate::reference::value_at;

fn value(day: &Opening, issue: u64, lots: u64) -> u64 {
    value_at(&day.terms[entry(TERM, issue as usize)], lots)
}

/// What some lots are worth, or a yen more or less, sometimes some tens of millions more.
fn about(r: &mut Random, worth: u64) -> u64 {
    let more = if r.one_in(3) { SHORTAGE * r.below(4) } else { 0 };
    (worth + more + r.below(3)).saturating_sub(1).clamp(1, AMOUNT)
}

/// An amount that is common in a day, or about what some lots are worth.
fn yen(r: &mut Random, kind: &Kind, day: &Opening) -> u64 {
    if r.one_in(3) {
        return r.choice(kind.yen);
    }
    let issues = r.between(1, 3);
    let worth = (0..issues).map(|_| value(day, r.below(day.issues), lots(r, kind))).sum();
    about(r, worth)
}

pub fn trade(r: &mut Random, kind: &Kind, day: &Opening) -> Call {
    let seller = r.below(day.participants);
    let buyer = (seller + r.between(1, day.participants - 1)) % day.participants;
    Call::Trade { seller, buyer, basket: r.below(BASKETS as u64), yen: yen(r, kind, day) }
}

/// A trade of about what all lots of a notice are worth, in the basket that takes them all.
pub fn trade_of(r: &mut Random, day: &Opening, notice: &Call) -> Option<Call> {
    let Call::Notice { participant, issues, lots } = notice else { return None };
    let worth = issues.iter().zip(lots).map(|(&issue, &lots)| value(day, issue, lots)).sum();
    let buyer = (participant + 1) % day.participants;
    Some(Call::Trade { seller: *participant, buyer, basket: BASKETS as u64 - 1, yen: about(r, worth) })
}

pub fn notice(r: &mut Random, kind: &Kind, day: &Opening) -> Call {
    let participant = r.below(day.participants);
    let mut issues: Vec<u64> = (0..day.issues).collect();
    r.shuffle(&mut issues);
    if r.one_in(4) {
        issues.truncate(r.between(1, day.issues) as usize);
    }
    let scheduled = |issue: u64| day.receipts[day.sizes().receipt(participant as usize, issue as usize)];
    let as_scheduled = r.one_in(2);
    let lots = issues.iter().map(|&issue| if as_scheduled { scheduled(issue).min(NOTICE) } else { lots(r, kind) }).collect();
    Call::Notice { participant, issues, lots }
}

/// What lent memory holds that no call writes.
pub const UNWRITTEN: u64 = 0xABAD_1DEA_ABAD_1DEA;

fn lent(length: usize) -> Vec<u64> {
    vec![UNWRITTEN; length]
}

pub fn run(r: &mut Random, day: &Opening) -> Call {
    let mut draw: Vec<u64> = (0..day.participants).collect();
    r.shuffle(&mut draw);
    let longer = if r.one_in(4) { 5 } else { 0 };
    Call::Run { draw, matches: lent(MATCHES + longer), lines: lent(LINES + longer) }
}

pub fn close(day: &Opening) -> Call {
    Call::Close { receipts: lent(day.sizes().receipts() + 3), pairs: lent(day.sizes().pairs() + 3) }
}

/// Any of the calls, with right arguments.
pub fn any_call(r: &mut Random, kind: &Kind, day: &Opening) -> Call {
    match r.below(10) {
        0..=3 => trade(r, kind, day),
        4..=6 => notice(r, kind, day),
        7 | 8 => run(r, day),
        _ => close(day),
    }
}
