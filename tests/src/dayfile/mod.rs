//! Day files: what a line says, read and written. The format stands here alone. A request that changes a line changes its case of `Line`, of
//! `read` and of `text`, and `convert::converted`, by which the stored days come to the new format.

mod answers;
mod convert;
mod show;

pub use answers::answers;
pub use convert::rewritten;

use crate::names::letter;
use crate::paper::TERM;

/// A line with something in it. An issue is a word: its number or its code.
#[derive(Clone, Debug, PartialEq, Eq)]
pub enum Line {
    Day {
        participants: u64,
        issues: u64,
    },
    Issue {
        code: String,
        terms: [u64; TERM],
    },
    Receipt {
        participant: u64,
        issue: String,
        lots: u64,
    },
    Pair {
        basket: u64,
        deliverer: u64,
        receiver: u64,
    },
    Open,
    Trade {
        seller: u64,
        buyer: u64,
        basket: u64,
        yen: u64,
    },
    /// each issue with its lots
    Notice {
        participant: u64,
        entries: Vec<(String, u64)>,
    },
    Run {
        draw: Vec<u64>,
    },
    Close,
    Show,
}

fn number(word: &str) -> Option<u64> {
    word.parse().ok()
}

fn numbers(words: &[&str]) -> Option<Vec<u64>> {
    words.iter().map(|word| number(word)).collect()
}

fn basket(word: &str) -> Option<u64> {
    match word.as_bytes() {
        [letter @ b'A'..=b'Z'] => Some(u64::from(letter - b'A')),
        _ => None,
    }
}

fn joined<T: ToString>(words: impl IntoIterator<Item = T>) -> String {
    words.into_iter().map(|word| word.to_string()).collect::<Vec<_>>().join(" ")
}

impl Line {
    /// The line of these words, if they are one.
    pub fn read(words: &[&str]) -> Option<Line> {
        Some(match *words {
            ["day", participants, issues] => Line::Day { participants: number(participants)?, issues: number(issues)? },
            ["issue", code, ref terms @ ..] => Line::Issue { code: code.to_string(), terms: numbers(terms)?.try_into().ok()? },
            ["receipt", participant, issue, lots] => {
                Line::Receipt { participant: number(participant)?, issue: issue.to_string(), lots: number(lots)? }
            }
            ["pair", letter, deliverer, receiver] => {
                Line::Pair { basket: basket(letter)?, deliverer: number(deliverer)?, receiver: number(receiver)? }
            }
            ["open"] => Line::Open,
            ["trade", seller, buyer, letter, yen] => {
                Line::Trade { seller: number(seller)?, buyer: number(buyer)?, basket: basket(letter)?, yen: number(yen)? }
            }
            ["notice", participant, ref entries @ ..] => {
                let entry = |word: &&str| word.split_once('=').and_then(|(issue, lots)| Some((issue.to_string(), number(lots)?)));
                Line::Notice { participant: number(participant)?, entries: entries.iter().map(entry).collect::<Option<_>>()? }
            }
            ["run", ref draw @ ..] => Line::Run { draw: numbers(draw)? },
            ["close"] => Line::Close,
            ["show"] => Line::Show,
            _ => return None,
        })
    }

    /// The line as it is written.
    pub fn text(&self) -> String {
        match self {
            Line::Day { participants, issues } => format!("day {participants} {issues}"),
            Line::Issue { code, terms } => format!("issue {code} {}", joined(terms)),
            Line::Receipt { participant, issue, lots } => format!("receipt {participant} {issue} {lots}"),
            Line::Pair { basket, deliverer, receiver } => format!("pair {} {deliverer} {receiver}", letter(*basket)),
            Line::Open => "open".to_string(),
            Line::Trade { seller, buyer, basket, yen } => format!("trade {seller} {buyer} {} {yen}", letter(*basket)),
            Line::Notice { participant, entries } => {
                format!("notice {participant} {}", joined(entries.iter().map(|(issue, lots)| format!("{issue}={lots}"))))
            }
            Line::Run { draw } => format!("run {}", joined(draw)),
            Line::Close => "close".to_string(),
            Line::Show => "show".to_string(),
        }
    }
}

/// A line's words and its comment, which begins with `#`.
fn parted(line: &str) -> (Vec<&str>, &str) {
    let (words, comment) = line.split_at(line.find('#').unwrap_or(line.len()));
    (words.split_whitespace().collect(), comment)
}

/// The lines of a day file; panics at one that cannot be read.
pub fn lines(text: &str) -> Vec<Line> {
    let words = text.lines().map(|line| parted(line).0).filter(|words| !words.is_empty());
    words.map(|words| Line::read(&words).unwrap_or_else(|| panic!("cannot be read: {}", words.join(" ")))).collect()
}
