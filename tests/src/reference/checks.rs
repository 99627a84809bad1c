//! The check table of document 01, each row over all items before the next row.

use super::sound::{at_most, codes_right, marks_fit, terms_fit};
use super::{book, Day, Issue, Table};
use crate::calls::Opening;
use crate::layout::{entry, Sizes, LENGTH, LINES, MATCHES};
use crate::paper::*;

type Checked = Result<(), Refusal>;

fn refuse(refusal: Refusal, given: bool) -> Checked {
    if given {
        Err(refusal)
    } else {
        Ok(())
    }
}

/// The day that is opened.
pub fn opened(given: &Opening, book_length: usize) -> Result<Day, Refusal> {
    refuse(Refusal::Size, !are_sizes(given.participants, given.issues))?;
    let sizes @ Sizes { participants: n, issues: m } = given.sizes();
    let lengths = [given.codes.len(), given.terms.len(), given.receipts.len(), given.pairs.len(), book_length];
    refuse(Refusal::Size, lengths != [sizes.codes(), sizes.terms(), sizes.receipts(), sizes.pairs(), LENGTH])?;

    let codes: Vec<u64> = given.codes.iter().map(|&byte| byte.into()).collect();
    let issues: Vec<Issue> = (0..m).map(|i| book::issue(&codes[entry(CODE, i)], &given.terms[entry(TERM, i)])).collect();
    refuse(Refusal::Code, !codes_right(&issues))?;
    refuse(Refusal::Term, !issues.iter().all(terms_fit))?;

    let numbers = |cells: &[u64]| -> Vec<i128> { cells.iter().map(|&cell| cell.into()).collect() };
    let receipts: Table = (0..n).map(|p| numbers(&given.receipts[sizes.row(p)])).collect();
    let marks = |basket: usize| -> Table { (0..n).map(|p| numbers(&given.pairs[sizes.marks(basket, p)])).collect() };
    let yesterday: Vec<Table> = (0..BASKETS).map(marks).collect();
    refuse(Refusal::Receipt, !at_most(&receipts, RECEIPT) || !marks_fit(&yesterday))?;

    Ok(Day {
        participants: n,
        issues,
        receipts,
        yesterday,
        positions: vec![vec![0; n]; BASKETS],
        notices: vec![vec![0; m]; n],
        runs: 0,
        trades: 0,
        today: vec![vec![vec![0; n]; n]; BASKETS],
        tally: vec![vec![0; m]; n],
    })
}

pub fn trade(day: &Day, seller: i128, buyer: i128, basket: i128, yen: i128) -> Checked {
    let n = day.participants as i128;
    refuse(Refusal::ThreeRuns, day.runs == MOST_RUNS)?;
    refuse(Refusal::NotOfDay, seller >= n || buyer >= n || basket >= BASKETS as i128 || seller == buyer)?;
    refuse(Refusal::Amount, yen == 0 || yen > AMOUNT.into())?;
    refuse(Refusal::NoIssue, !day.has_unmarked(basket as usize))?;
    let positions = &day.positions[basket as usize];
    let after = [positions[seller as usize] + yen, positions[buyer as usize] - yen];
    refuse(Refusal::Position, after.iter().any(|position| position.abs() > POSITION.into()))?;
    refuse(Refusal::Trades, day.trades >= MOST_TRADES)
}

pub fn notice(day: &Day, participant: u64, issues: &[u64], lots: &[u64]) -> Checked {
    refuse(Refusal::ThreeRuns, day.runs == MOST_RUNS)?;
    refuse(Refusal::NotOfDay, participant >= day.participants as u64)?;
    let mut named = issues.to_vec();
    named.sort();
    named.dedup();
    let not_of_day = issues.iter().any(|&issue| issue >= day.issues.len() as u64);
    refuse(Refusal::Entries, issues.is_empty() || issues.len() != lots.len() || not_of_day || named.len() < issues.len())?;
    refuse(Refusal::Lots, lots.iter().any(|&lots| lots > NOTICE))
}

pub fn run(day: &Day, draw: &[u64], matches: usize, lines: usize) -> Checked {
    refuse(Refusal::ThreeRuns, day.runs == MOST_RUNS)?;
    let mut drawn = draw.to_vec();
    drawn.sort();
    refuse(Refusal::Draw, drawn != (0..day.participants as u64).collect::<Vec<_>>())?;
    refuse(Refusal::ShortList, matches < MATCHES || lines < LINES)
}

pub fn close(day: &Day, receipts: usize, pairs: usize) -> Checked {
    let sizes = Sizes { participants: day.participants, issues: day.issues.len() };
    refuse(Refusal::FewRuns, day.runs < MOST_RUNS)?;
    refuse(Refusal::ShortList, receipts < sizes.receipts() || pairs < sizes.pairs())
}
