//! What random days are like.

use crate::paper::{AMOUNT, BASKETS, COMPOSITION, LOT, MOST_ISSUES, MOST_PARTICIPANTS, NOTICE, SHORTAGE, TARGET, TEN_YEAR, UNIT};

/// What a day is like: its sizes, the kinds, lots and yen that are common in it, the most trades before a run, and how rare (one in so many) marks,
/// pairs and wrong calls are.
pub struct Kind {
    pub participants: (u64, u64),
    pub issues: (u64, u64),
    pub kinds: &'static [u64],
    pub lots: &'static [u64],
    pub yen: &'static [u64],
    pub trades: u64,
    pub mark: u64,
    pub pair: u64,
    pub wrong: u64,
}

const ANY: &[u64] = COMPOSITION[BASKETS - 1];
const BILLION: u64 = 1_000_000_000;
const MOST_PEOPLE: u64 = MOST_PARTICIPANTS as u64;
const MOST_BONDS: u64 = MOST_ISSUES as u64;

/// What most kinds of days share.
const USUAL: Kind = Kind { participants: (2, 4), issues: (1, 5), kinds: ANY, lots: &[], yen: &[], trades: 4, mark: 20, pair: 6, wrong: 60 };

/// Small, ties and exact hits.
const SMALL: Kind = Kind {
    participants: (2, 5),
    lots: &[0, 1, 2, 2, 5, 199, 200, 201, 400],
    yen: &[1, LOT, SHORTAGE, 2 * SHORTAGE + 1],
    mark: 12,
    wrong: 40,
    ..USUAL
};

/// Whole units.
const UNITS: Kind = Kind {
    issues: (1, 6),
    kinds: &[0, 1, 2],
    lots: &[0, 1, UNIT - 1, UNIT, UNIT + 1, 2 * UNIT, 250_000, 3 * UNIT + 1],
    yen: &[TARGET - 1, TARGET, TARGET + 1, 2 * TARGET, 12_345_678_901],
    pair: 10,
    ..USUAL
};

/// Large, near the limits.
pub const LARGE: Kind = Kind {
    participants: (MOST_PEOPLE - 1, MOST_PEOPLE),
    issues: (MOST_BONDS - 4, MOST_BONDS),
    lots: &[UNIT, 5_000_000, NOTICE - 1, NOTICE],
    yen: &[AMOUNT, AMOUNT - 1, AMOUNT - BILLION, AMOUNT / 2],
    trades: 60,
    pair: 15,
    ..USUAL
};

/// Marks and scarce bonds.
const MARKED: Kind = Kind {
    participants: (2, 7),
    issues: (1, 16),
    lots: &[0, 0, 1, 300, UNIT - 1, 250_001],
    yen: &[422_162, SHORTAGE, BILLION, 2 * TARGET],
    trades: 8,
    mark: 2,
    wrong: 40,
    ..USUAL
};

/// Yesterday's pairs.
const PAIRED: Kind = Kind {
    participants: (3, MOST_PEOPLE),
    issues: (1, 8),
    lots: &[0, 400, UNIT, 250_000, 10 * UNIT],
    yen: &[2 * SHORTAGE, BILLION, TARGET, 7 * BILLION],
    trades: 20,
    mark: 10,
    pair: 2,
    ..USUAL
};

/// Ten-year issues, nothing notified.
const TEN_YEARS: Kind = Kind {
    issues: (1, 12),
    kinds: &[TEN_YEAR, TEN_YEAR, TEN_YEAR, 1, 6],
    lots: &[0, 0, 0, 7],
    yen: &[120_000, 49_999, BILLION],
    trades: 5,
    mark: 5,
    pair: 8,
    ..USUAL
};

/// Refusals.
const REFUSED: Kind = Kind {
    participants: (2, MOST_PEOPLE),
    issues: (1, MOST_BONDS),
    lots: &[0, 1, 400, NOTICE],
    yen: &[1, BILLION, AMOUNT],
    trades: 10,
    mark: 2,
    pair: 5,
    wrong: 2,
    ..USUAL
};

pub const KINDS: [Kind; 7] = [SMALL, UNITS, LARGE, MARKED, PAIRED, TEN_YEARS, REFUSED];
