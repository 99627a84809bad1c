//! The names of places: short ones, by which the stored calls go (`positions C 3`), and words, for a comparison that fails ("position of
//! participant 3 in basket C").

use crate::layout::*;
use crate::paper::{BASKETS, CODE, LINE_NUMBERS, MATCH_NUMBERS, TERM, TERM_RANGES};
use std::ops::Range;

/// What the places of a table go by.
#[derive(Clone, Copy, PartialEq, Eq)]
pub enum By {
    Basket,
    Participant,
    Issue,
    Byte,
    Term,
    /// an entry of a list
    Entry,
    /// a number of an entry, by these names
    Number(&'static [&'static str]),
}

impl By {
    /// How many there are on a day of these sizes.
    const fn count(self, sizes: Sizes) -> usize {
        match self {
            By::Basket => BASKETS,
            By::Participant => sizes.participants,
            By::Issue => sizes.issues,
            By::Byte => CODE,
            By::Term => TERM,
            By::Entry => usize::MAX,
            By::Number(names) => names.len(),
        }
    }

    fn name(self, number: usize) -> String {
        match self {
            By::Basket => letter(number as u64).to_string(),
            By::Term => TERM_RANGES[number].0.to_string(),
            By::Number(names) => names[number].to_string(),
            By::Participant | By::Issue | By::Byte | By::Entry => number.to_string(),
        }
    }
}

/// A basket's letter; a letter after G is no basket's.
pub fn letter(basket: u64) -> char {
    u8::try_from(basket).ok().and_then(|basket| basket.checked_add(b'A')).map_or('?', char::from)
}

/// A table of cells: its name, where it starts, what its places go by, and a place in words, which name what it goes by as {0}, {1}, {2}.
#[derive(Clone, Copy)]
pub struct Table {
    pub name: &'static str,
    pub at: usize,
    pub by: &'static [By],
    words: &'static str,
}

const fn table(name: &'static str, at: usize, by: &'static [By], words: &'static str) -> Table {
    Table { name, at, by, words }
}

const LOTS: &[By] = &[By::Participant, By::Issue];
const MARKS: &[By] = &[By::Basket, By::Participant, By::Participant];

/// The tables of the book, in the order of document 01.
pub const TABLES: [Table; 12] = [
    table("participants", PARTICIPANTS, &[], "number of participants"),
    table("issues", ISSUES, &[], "number of issues"),
    table("codes", CODES, &[By::Issue, By::Byte], "byte {1} of the code of issue {0}"),
    table("terms", TERMS, &[By::Issue, By::Term], "{1} of issue {0}"),
    table("receipts", RECEIPTS, LOTS, "scheduled receipt of participant {0} in issue {1}"),
    table("pairs", PAIRS, MARKS, "yesterday's pair of deliverer {1} and receiver {2} in basket {0}"),
    table("positions", POSITIONS, &[By::Basket, By::Participant], "position of participant {1} in basket {0}"),
    table("notices", NOTICES, LOTS, "notified lots of participant {0} in issue {1}"),
    table("runs", RUNS, &[], "runs done"),
    table("trades", TRADES, &[], "trades accepted"),
    table("today's pairs", TODAY, MARKS, "today's pair of deliverer {1} and receiver {2} in basket {0}"),
    table("tally", TALLY, LOTS, "tally of participant {0} in issue {1}"),
];

// the lists that calls write
pub const MATCH_LIST: Table = table("matches", 0, &[By::Entry, By::Number(&MATCH_NUMBERS)], "{1} of match {0}");
pub const LINE_LIST: Table = table("lines", 0, &[By::Entry, By::Number(&LINE_NUMBERS)], "{1} of line {0}");
pub const RECEIPT_LIST: Table = table("receipts", 0, LOTS, "tomorrow's receipt of participant {0} in issue {1}");
pub const PAIR_LIST: Table = table("pairs", 0, MARKS, "tomorrow's pair of deliverer {1} and receiver {2} in basket {0}");

impl Table {
    /// Its places on a day of these sizes.
    pub fn places(&self, sizes: Sizes) -> Range<usize> {
        let count = self.by.iter().fold(1, |count: usize, by| count.saturating_mul(by.count(sizes)));
        self.at..self.at.saturating_add(count)
    }

    /// What a place of it goes by.
    fn goes_by(&self, place: usize, sizes: Sizes) -> Vec<String> {
        let (mut left, mut names) = (place - self.at, vec![]);
        for by in self.by.iter().rev() {
            let count = by.count(sizes);
            names.push(by.name(left % count));
            left /= count;
        }
        names.reverse();
        names
    }

    /// The short name of a place of it, after its own: `C 3`.
    pub fn short(&self, place: usize, sizes: Sizes) -> String {
        self.goes_by(place, sizes).join(" ")
    }

    /// A place in words. A list that is lent may be longer than the day asks.
    pub fn in_words(&self, place: usize, sizes: Sizes) -> String {
        if !self.places(sizes).contains(&place) {
            return format!("place {place} of the {}, past what the day asks", self.name);
        }
        let names = self.goes_by(place, sizes);
        names.iter().enumerate().fold(self.words.to_string(), |words, (k, name)| words.replace(&format!("{{{k}}}"), name))
    }
}

/// A place of the book in words.
pub fn book_place(place: usize) -> String {
    match TABLES.iter().find(|table| table.places(Sizes::LARGEST).contains(&place)) {
        Some(table) => table.in_words(place, Sizes::LARGEST),
        None => format!("place {place}, past the book"),
    }
}
