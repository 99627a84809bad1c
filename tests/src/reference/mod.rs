//! Document 01 a second time, from the paper and its readings alone: a day as tables, 128-bit numbers, searches where others divide.
//! Nothing here is taken from the definitions or the code of the library, and nothing is made fast.

mod book;
mod checks;
mod filling;
mod matching;
mod run;
mod sound;
mod value;

use crate::calls::{Allocation, Call, Reply};
use crate::paper::*;

pub use sound::is_code;
pub use value::value_at;

struct Issue {
    code: Vec<u64>,
    /// in the paper's order: kind, price, ..
    terms: [i128; TERM],
}

impl Issue {
    /// "An issue is unmarked if both are 0."
    fn unmarked(&self) -> bool {
        self.terms[REDEEMED] == 0 && self.terms[INTEREST] == 0
    }

    fn is_of(&self, kind: u64) -> bool {
        self.terms[KIND] == i128::from(kind)
    }

    fn is_in(&self, basket: usize) -> bool {
        COMPOSITION[basket].iter().any(|&kind| self.is_of(kind))
    }
}

type Table = Vec<Vec<i128>>;

struct Day {
    participants: usize,
    issues: Vec<Issue>,
    /// by participant, then issue
    receipts: Table,
    /// by basket, deliverer, receiver
    yesterday: Vec<Table>,
    /// by basket, then participant
    positions: Table,
    notices: Table,
    runs: u64,
    trades: u64,
    today: Vec<Table>,
    tally: Table,
}

impl Day {
    fn has_unmarked(&self, basket: usize) -> bool {
        self.issues.iter().any(|issue| issue.unmarked() && issue.is_in(basket))
    }
}

pub struct Reference;

impl Allocation for Reference {
    fn make(&self, call: &mut Call, book: &mut [u64]) -> Reply {
        let done = match call {
            Call::Open(opening) => checks::opened(opening, book.len()).map(|day| {
                book.fill(0);
                book::write(&day, book);
                Reply::Accepted
            }),
            Call::Trade { seller, buyer, basket, yen } => trade(book, [*seller, *buyer, *basket, *yen].map(i128::from)),
            Call::Notice { participant, issues, lots } => notice(book, *participant, issues, lots),
            Call::Run { draw, matches, lines } => run(book, draw, matches, lines),
            Call::Close { receipts, pairs } => close(book, receipts, pairs),
        };
        done.unwrap_or_else(Reply::Refused)
    }
}

type Done = Result<Reply, Refusal>;

fn trade(book: &mut [u64], [seller, buyer, basket, yen]: [i128; 4]) -> Done {
    let mut day = book::sound_day(book)?;
    checks::trade(&day, seller, buyer, basket, yen)?;
    let positions = &mut day.positions[basket as usize];
    positions[seller as usize] += yen;
    positions[buyer as usize] -= yen;
    day.trades += 1;
    book::write(&day, book);
    Ok(Reply::Accepted)
}

fn notice(book: &mut [u64], participant: u64, issues: &[u64], lots: &[u64]) -> Done {
    let mut day = book::sound_day(book)?;
    checks::notice(&day, participant, issues, lots)?;
    let row = &mut day.notices[participant as usize];
    row.fill(0);
    for (&issue, &lots) in issues.iter().zip(lots) {
        row[issue as usize] = lots.into();
    }
    book::write(&day, book);
    Ok(Reply::Accepted)
}

fn run(book: &mut [u64], draw: &[u64], matches: &mut [u64], lines: &mut [u64]) -> Done {
    let mut day = book::sound_day(book)?;
    checks::run(&day, draw, matches.len(), lines.len())?;
    let draw: Vec<usize> = draw.iter().map(|&participant| participant as usize).collect();
    let lists = run::run(&mut day, &draw);
    book::write(&day, book);
    Ok(lists.write(matches, lines))
}

fn close(book: &[u64], receipts: &mut [u64], pairs: &mut [u64]) -> Done {
    let day = book::sound_day(book)?;
    checks::close(&day, receipts.len(), pairs.len())?;
    let tallies = day.tally.iter().flatten().map(|&lots| lots.max(0) as u64);
    receipts.iter_mut().zip(tallies).for_each(|(to, lots)| *to = lots);
    let marks = day.today.iter().flatten().flatten().map(|&mark| mark as u64);
    pairs.iter_mut().zip(marks).for_each(|(to, mark)| *to = mark);
    Ok(Reply::Accepted)
}
