//! Where things stand in the book and in the lists of the calls. Places are worked out here alone.

use crate::paper::*;
use std::ops::Range;

// the book: a number, or the first place of a table
pub const PARTICIPANTS: usize = 0;
pub const ISSUES: usize = 1;
pub const RUNS: usize = 2;
pub const TRADES: usize = 3;
pub const CODES: usize = 4;
pub const TERMS: usize = CODES + CODE * MOST_ISSUES;
pub const RECEIPTS: usize = TERMS + TERM * MOST_ISSUES;
pub const PAIRS: usize = RECEIPTS + MOST_PARTICIPANTS * MOST_ISSUES;
pub const POSITIONS: usize = PAIRS + BASKETS * SQUARE;
pub const NOTICES: usize = POSITIONS + BASKETS * MOST_PARTICIPANTS;
pub const TODAY: usize = NOTICES + MOST_PARTICIPANTS * MOST_ISSUES;
pub const TALLY: usize = TODAY + BASKETS * SQUARE;
pub const LENGTH: usize = TALLY + MOST_PARTICIPANTS * MOST_ISSUES;

const SQUARE: usize = MOST_PARTICIPANTS * MOST_PARTICIPANTS;

/// A byte of an issue's code.
pub const fn byte(issue: usize, byte: usize) -> usize {
    CODES + CODE * issue + byte
}

/// The bytes of an issue's code.
pub const fn code(issue: usize) -> Range<usize> {
    byte(issue, 0)..byte(issue, CODE)
}

/// The codes of so many issues.
pub const fn codes(issues: usize) -> Range<usize> {
    CODES..byte(issues, 0)
}

/// A term of an issue.
pub const fn term(issue: usize, term: usize) -> usize {
    TERMS + TERM * issue + term
}

/// The terms of an issue.
pub const fn terms(issue: usize) -> Range<usize> {
    term(issue, 0)..term(issue, TERM)
}

/// The terms of so many issues.
pub const fn all_terms(issues: usize) -> Range<usize> {
    TERMS..term(issues, 0)
}

/// A participant's lots of an issue, in the receipts, the notices or the tally.
pub const fn lots(table: usize, participant: usize, issue: usize) -> usize {
    table + MOST_ISSUES * participant + issue
}

/// A participant's lots of so many issues.
pub const fn row(table: usize, participant: usize, issues: usize) -> Range<usize> {
    lots(table, participant, 0)..lots(table, participant, issues)
}

/// A participant's position in a basket.
pub const fn position(basket: usize, participant: usize) -> usize {
    POSITIONS + MOST_PARTICIPANTS * basket + participant
}

/// The positions of so many participants in a basket.
pub const fn positions(basket: usize, participants: usize) -> Range<usize> {
    position(basket, 0)..position(basket, participants)
}

/// The mark of a pair in a basket, yesterday's (`PAIRS`) or today's (`TODAY`).
pub const fn mark(table: usize, basket: usize, deliverer: usize, receiver: usize) -> usize {
    table + SQUARE * basket + pair(deliverer, receiver)
}

/// The mark of a pair among a basket's marks.
pub const fn pair(deliverer: usize, receiver: usize) -> usize {
    MOST_PARTICIPANTS * deliverer + receiver
}

/// A basket's marks, those beyond the day's participants too.
pub const fn square(table: usize, basket: usize) -> Range<usize> {
    mark(table, basket, 0, 0)..mark(table, basket + 1, 0, 0)
}

/// A deliverer's marks with so many receivers.
pub const fn marks(table: usize, basket: usize, deliverer: usize, receivers: usize) -> Range<usize> {
    mark(table, basket, deliverer, 0)..mark(table, basket, deliverer, receivers)
}

/// The marks of all baskets, those beyond the day's participants too.
pub const fn all_marks(table: usize) -> Range<usize> {
    table..mark(table, BASKETS, 0, 0)
}

/// A day's sizes, by which the lists of an opening and a close are laid out.
#[derive(Clone, Copy, Debug, PartialEq, Eq)]
pub struct Sizes {
    pub participants: usize,
    pub issues: usize,
}

impl Sizes {
    pub const LARGEST: Sizes = Sizes { participants: MOST_PARTICIPANTS, issues: MOST_ISSUES };

    /// The sizes that a book has in their places.
    pub fn of(book: &[u64]) -> Sizes {
        Sizes { participants: book[PARTICIPANTS] as usize, issues: book[ISSUES] as usize }
    }

    /// How long the list of codes is.
    pub const fn codes(self) -> usize {
        CODE * self.issues
    }

    /// How long the list of terms is.
    pub const fn terms(self) -> usize {
        TERM * self.issues
    }

    /// How long a list of receipts is.
    pub const fn receipts(self) -> usize {
        self.participants * self.issues
    }

    /// How long a list of pair marks is.
    pub const fn pairs(self) -> usize {
        BASKETS * self.participants * self.participants
    }

    /// A participant's lots of an issue, in a list of receipts.
    pub const fn receipt(self, participant: usize, issue: usize) -> usize {
        self.issues * participant + issue
    }

    /// A participant's lots of all issues, in a list of receipts.
    pub const fn row(self, participant: usize) -> Range<usize> {
        self.receipt(participant, 0)..self.receipt(participant + 1, 0)
    }

    /// The mark of a pair in a basket, in a list of pair marks.
    pub const fn pair(self, basket: usize, deliverer: usize, receiver: usize) -> usize {
        self.participants * (self.participants * basket + deliverer) + receiver
    }

    /// A deliverer's marks with all receivers in a basket, in a list of pair marks.
    pub const fn marks(self, basket: usize, deliverer: usize) -> Range<usize> {
        self.pair(basket, deliverer, 0)..self.pair(basket, deliverer + 1, 0)
    }
}

// the lists of a run: how many numbers are asked of them
pub const MATCHES: usize = MATCH * MOST_MATCHES;
pub const LINES: usize = LINE * MOST_LINES;

/// Entry k of a list whose entries have so many numbers: a match, a line, the code or the terms of an issue.
pub const fn entry(numbers: usize, k: usize) -> Range<usize> {
    numbers * k..numbers * (k + 1)
}
