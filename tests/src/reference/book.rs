//! A day out of the book and back. Places beyond the day's sizes are neither read nor written.

use super::{sound, Day, Issue, Table};
use crate::layout::*;
use crate::paper::{are_sizes, Refusal, BASKETS};
use std::ops::Range;

fn plain(cell: u64) -> i128 {
    cell.into()
}

fn signed(cell: u64) -> i128 {
    (cell as i64).into()
}

fn cells(book: &[u64], places: Range<usize>, number: fn(u64) -> i128) -> Vec<i128> {
    book[places].iter().map(|&cell| number(cell)).collect()
}

/// None where the length is not a book's, or the sizes are not a day's.
fn read(book: &[u64]) -> Option<Day> {
    if book.len() != LENGTH || !are_sizes(book[PARTICIPANTS], book[ISSUES]) {
        return None;
    }
    let Sizes { participants: n, issues: m } = Sizes::of(book);
    let by_participant = |table: usize, number| -> Table { (0..n).map(|p| cells(book, row(table, p, m), number)).collect() };
    let by_basket = |table: usize| -> Vec<Table> {
        (0..BASKETS).map(|basket| (0..n).map(|p| cells(book, marks(table, basket, p, n), plain)).collect()).collect()
    };
    Some(Day {
        participants: n,
        issues: (0..m).map(|i| issue(&book[code(i)], &book[terms(i)])).collect(),
        receipts: by_participant(RECEIPTS, plain),
        yesterday: by_basket(PAIRS),
        positions: (0..BASKETS).map(|basket| cells(book, positions(basket, n), signed)).collect(),
        notices: by_participant(NOTICES, plain),
        runs: book[RUNS],
        trades: book[TRADES],
        today: by_basket(TODAY),
        tally: by_participant(TALLY, signed),
    })
}

pub fn issue(code: &[u64], terms: &[u64]) -> Issue {
    Issue { code: code.to_vec(), terms: std::array::from_fn(|term| plain(terms[term])) }
}

/// The day of a sound book.
pub fn sound_day(book: &[u64]) -> Result<Day, Refusal> {
    read(book).filter(sound::is_sound).ok_or(Refusal::Unsound)
}

fn put(book: &mut [u64], places: Range<usize>, numbers: &[i128]) {
    for (cell, &number) in book[places].iter_mut().zip(numbers) {
        *cell = number as u64;
    }
}

pub fn write(day: &Day, book: &mut [u64]) {
    book[PARTICIPANTS] = day.participants as u64;
    book[ISSUES] = day.issues.len() as u64;
    book[RUNS] = day.runs;
    book[TRADES] = day.trades;
    for (i, issue) in day.issues.iter().enumerate() {
        book[code(i)].copy_from_slice(&issue.code);
        put(book, terms(i), &issue.terms);
    }
    let (n, m) = (day.participants, day.issues.len());
    for p in 0..n {
        put(book, row(RECEIPTS, p, m), &day.receipts[p]);
        put(book, row(NOTICES, p, m), &day.notices[p]);
        put(book, row(TALLY, p, m), &day.tally[p]);
    }
    for basket in 0..BASKETS {
        put(book, positions(basket, n), &day.positions[basket]);
        for p in 0..n {
            put(book, marks(PAIRS, basket, p, n), &day.yesterday[basket][p]);
            put(book, marks(TODAY, basket, p, n), &day.today[basket][p]);
        }
    }
}
