//! A call with all that it is given, and a side that answers it. A call more is a case of `Call` with its words and its lists, and a case of
//! `make` on each side.

use crate::entries::{Line, Match};
use crate::layout::{entry, Sizes};
use crate::names::{Table, LINE_LIST, MATCH_LIST, PAIR_LIST, RECEIPT_LIST};
use crate::paper::{Refusal, LINE, MATCH};
use std::fmt::{self, Display, Formatter};

#[derive(Clone, Copy, Debug, PartialEq, Eq)]
pub enum Reply {
    Accepted,
    Ran { matches: usize, lines: usize },
    Refused(Refusal),
}

impl Display for Reply {
    fn fmt(&self, f: &mut Formatter) -> fmt::Result {
        match self {
            Reply::Accepted => write!(f, "accepted"),
            Reply::Ran { matches, lines } => write!(f, "ran with {matches} matches and {lines} lines"),
            Reply::Refused(refusal) => write!(f, "refused {}", refusal.number()),
        }
    }
}

#[derive(Clone, Debug, Default, PartialEq, Eq)]
pub struct Opening {
    pub participants: u64,
    pub issues: u64,
    pub codes: Vec<u8>,
    pub terms: Vec<u64>,
    pub receipts: Vec<u64>,
    pub pairs: Vec<u64>,
}

impl Opening {
    pub fn sizes(&self) -> Sizes {
        Sizes { participants: self.participants as usize, issues: self.issues as usize }
    }

    /// Takes the receipts and pairs that a close wrote.
    pub fn follow(&mut self, closed: &Call) {
        let Call::Close { receipts, pairs } = closed else { panic!("no close: {closed}") };
        self.receipts = receipts[..self.receipts.len()].to_vec();
        self.pairs = pairs[..self.pairs.len()].to_vec();
    }
}

/// The numbers and lists that a call is given. A list that it writes is here as it is before the call, and afterwards as the call left it.
#[derive(Clone, Debug, PartialEq, Eq)]
pub enum Call {
    Open(Opening),
    Trade { seller: u64, buyer: u64, basket: u64, yen: u64 },
    Notice { participant: u64, issues: Vec<u64>, lots: Vec<u64> },
    Run { draw: Vec<u64>, matches: Vec<u64>, lines: Vec<u64> },
    Close { receipts: Vec<u64>, pairs: Vec<u64> },
}

/// A side that answers every call.
pub trait Allocation {
    fn make(&self, call: &mut Call, book: &mut [u64]) -> Reply;
}

/// The call in words: its numbers, and of its lists how long they are.
impl Display for Call {
    fn fmt(&self, f: &mut Formatter) -> fmt::Result {
        match self {
            Call::Open(o) => {
                let [codes, terms, receipts, pairs] = [o.codes.len(), o.terms.len(), o.receipts.len(), o.pairs.len()];
                write!(f, "opening, participants {}, issues {}", o.participants, o.issues)?;
                write!(f, "; sizes of lists: codes {codes}, terms {terms}, receipts {receipts}, pairs {pairs}")
            }
            Call::Trade { seller, buyer, basket, yen } => write!(f, "trade, seller {seller}, buyer {buyer}, basket {basket}, yen {yen}"),
            Call::Notice { participant, issues, lots } => {
                write!(f, "notice, participant {participant}; sizes of lists: issues {}, lots {}", issues.len(), lots.len())
            }
            Call::Run { draw, matches, lines } => {
                write!(f, "run; sizes of lists: draw {}, matches {}, lines {}", draw.len(), matches.len(), lines.len())
            }
            Call::Close { receipts, pairs } => write!(f, "close; sizes of lists: receipts {}, pairs {}", receipts.len(), pairs.len()),
        }
    }
}

impl Call {
    /// What is called, without what it is given.
    pub fn name(&self) -> &'static str {
        match self {
            Call::Open(_) => "opening",
            Call::Trade { .. } => "trade",
            Call::Notice { .. } => "notice",
            Call::Run { .. } => "run",
            Call::Close { .. } => "close",
        }
    }

    /// The lists that the call writes, and the names of their places.
    pub fn written(&self) -> Vec<(Table, &[u64])> {
        match self {
            Call::Run { matches, lines, .. } => vec![(MATCH_LIST, matches), (LINE_LIST, lines)],
            Call::Close { receipts, pairs } => vec![(RECEIPT_LIST, receipts), (PAIR_LIST, pairs)],
            Call::Open(_) | Call::Trade { .. } | Call::Notice { .. } => vec![],
        }
    }

    /// The matches and lines of a call that ran.
    pub fn entries(&self, reply: Reply) -> (Vec<Match>, Vec<Line>) {
        match (self, reply) {
            (Call::Run { matches, lines, .. }, Reply::Ran { matches: matched, lines: lined }) => {
                let all_matches = (0..matched).map(|k| Match::read(&matches[entry(MATCH, k)]));
                let all_lines = (0..lined).map(|k| Line::read(&lines[entry(LINE, k)]));
                (all_matches.collect(), all_lines.collect())
            }
            _ => (vec![], vec![]),
        }
    }
}
