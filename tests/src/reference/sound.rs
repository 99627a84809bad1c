//! The ranges of a day's data and the soundness of a book.

use super::{Day, Issue, Table};
use crate::paper::*;

/// ISO 6166: letters become two digits; from the right every second digit is doubled; the digits of it all sum to a multiple of ten.
pub fn is_code(code: &[u64]) -> bool {
    let characters: Option<Vec<char>> = code.iter().map(|&cell| u8::try_from(cell).ok().map(char::from)).collect();
    let Some(text) = characters else { return false };
    let plain = |c: &char| c.is_ascii_digit() || c.is_ascii_uppercase();
    if text[..2] != COUNTRY.map(char::from) || !text.iter().all(plain) || !text[CODE - 1].is_ascii_digit() {
        return false;
    }
    let spelled: String = text.iter().map(|c| c.to_digit(36).expect("a digit or a letter").to_string()).collect();
    let digits = spelled.chars().rev().map(|c| c.to_digit(10).expect("a digit"));
    let sum: u32 = digits.enumerate().map(|(place, digit)| if place % 2 == 1 { digit * 2 / 10 + digit * 2 % 10 } else { digit }).sum();
    sum.is_multiple_of(10)
}

pub fn codes_right(issues: &[Issue]) -> bool {
    issues.iter().all(|issue| is_code(&issue.code)) && issues.windows(2).all(|two| two[0].code < two[1].code)
}

pub fn terms_fit(issue: &Issue) -> bool {
    issue.terms.iter().zip(&TERM_RANGES).all(|(&term, (_, range))| u64::try_from(term).is_ok_and(|term| range.contains(&term)))
}

pub fn at_most(table: &Table, limit: u64) -> bool {
    table.iter().flatten().all(|number| (0..=i128::from(limit)).contains(number))
}

/// Either sign.
fn within(table: &Table, limit: u64) -> bool {
    table.iter().flatten().all(|number| number.abs() <= i128::from(limit))
}

pub fn marks_fit(baskets: &[Table]) -> bool {
    baskets.iter().all(|marks| at_most(marks, 1) && (0..marks.len()).all(|p| marks[p][p] == 0))
}

fn positions_fit(day: &Day) -> bool {
    within(&day.positions, POSITION)
        && (0..BASKETS).all(|basket| {
            let positions = &day.positions[basket];
            positions.iter().sum::<i128>() == 0 && (positions.iter().all(|&yen| yen == 0) || day.has_unmarked(basket))
        })
}

pub fn is_sound(day: &Day) -> bool {
    day.runs <= MOST_RUNS
        && codes_right(&day.issues)
        && day.issues.iter().all(terms_fit)
        && at_most(&day.receipts, RECEIPT)
        && marks_fit(&day.yesterday)
        && at_most(&day.notices, NOTICE)
        && day.trades <= MOST_TRADES
        && positions_fit(day)
        && within(&day.tally, TALLY_A_RUN * day.runs)
        && marks_fit(&day.today)
        && (day.runs < MOST_RUNS || within(&day.positions, 0) && at_most(&day.notices, 0))
}
