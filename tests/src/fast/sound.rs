//! The ranges of opening data and the soundness of a book, in loops without a branch for each cell.

use super::Book;
use crate::layout::{all_marks, all_terms, codes, positions, row, Sizes, ISSUES, NOTICES, PAIRS, PARTICIPANTS, RECEIPTS, RUNS, TALLY, TODAY, TRADES};
use crate::paper::*;

/// The kinds of each basket, a bit to a kind.
pub const KINDS: [u8; BASKETS] = {
    let mut sets = [0; BASKETS];
    let mut basket = 0;
    while basket < BASKETS {
        let mut k = 0;
        while k < COMPOSITION[basket].len() {
            sets[basket] |= 1 << COMPOSITION[basket][k];
            k += 1;
        }
        basket += 1;
    }
    sets
};

/// The highest bit is set by a cell above the limit, which is below 2^63.
pub fn at_most(cells: &[u64], limit: u64) -> bool {
    cells.iter().fold(0, |seen, &cell| seen | cell | limit.wrapping_sub(cell)) >> 63 == 0
}

/// Either sign.
fn within(cells: &[u64], limit: u64) -> bool {
    cells.iter().fold(true, |all, &cell| all & (cell.wrapping_add(limit) <= 2 * limit))
}

/// What a digit or capital adds to the check sum where its last digit is not doubled, and where it is; 255 for other bytes.
const fn check_sums() -> [[u8; 2]; 256] {
    const fn doubled(digit: u8) -> u8 {
        if digit < 5 {
            2 * digit
        } else {
            2 * digit - 9
        }
    }
    let mut sums = [[255; 2]; 256];
    let mut c = 0;
    while c < 36u8 {
        let (high, low) = (c / 10, c % 10);
        let byte = if c < 10 { b'0' + c } else { b'A' + c - 10 };
        sums[byte as usize] = [doubled(high) + low, high + doubled(low)];
        c += 1;
    }
    sums
}

static CHECK_SUMS: [[u8; 2]; 256] = check_sums();

fn is_code(code: &[u64]) -> bool {
    let check = code[CODE - 1].wrapping_sub(u64::from(b'0'));
    if code[0] != COUNTRY[0].into() || code[1] != COUNTRY[1].into() || check > 9 {
        return false;
    }
    let mut sum = check as u32;
    let mut doubled = 1;
    for &cell in code[..CODE - 1].iter().rev() {
        if cell > 255 {
            return false;
        }
        let add = CHECK_SUMS[cell as usize][doubled];
        if add == 255 {
            return false;
        }
        sum += u32::from(add);
        // a capital is two digits, and leaves the turn as it is
        doubled ^= usize::from(cell <= u64::from(b'9'));
    }
    sum.is_multiple_of(10)
}

pub fn codes_right(codes: &[u64]) -> bool {
    codes.chunks_exact(CODE).all(is_code) && codes.chunks_exact(CODE).zip(codes[CODE..].chunks_exact(CODE)).all(|(a, b)| a < b)
}

pub fn terms_fit(terms: &[u64]) -> bool {
    terms.chunks_exact(TERM).all(|issue| issue.iter().zip(&TERM_RANGES).all(|(term, (_, range))| range.contains(term)))
}

/// Baskets of n rows of n marks, a stride apart: 0 or 1, and 0 on oneself.
pub fn marks_fit(marks: &[u64], n: usize, stride: usize) -> bool {
    marks.chunks_exact(stride * stride).all(|square| {
        let (mut all, mut on_oneself) = (0, 0);
        for (p, row) in square.chunks_exact(stride).take(n).enumerate() {
            all = row[..n].iter().fold(all, |all, &mark| all | mark);
            on_oneself |= row[p];
        }
        all <= 1 && on_oneself == 0
    })
}

/// Has the basket an unmarked issue?
pub fn is_tradable(book: &Book, basket: usize) -> bool {
    book[all_terms(book[ISSUES] as usize)].chunks_exact(TERM).any(|t| KINDS[basket] >> t[KIND] & 1 == 1 && t[REDEEMED] | t[INTEREST] == 0)
}

fn positions_fit(book: &Book, n: usize, limit: u64) -> bool {
    (0..BASKETS).all(|basket| {
        let row = &book[positions(basket, n)];
        let sum = row.iter().fold(0u64, |sum, &yen| sum.wrapping_add(yen));
        let any = row.iter().fold(0, |any, &yen| any | yen);
        within(row, limit) && sum == 0 && (any == 0 || is_tradable(book, basket))
    })
}

pub fn is_sound(book: &Book) -> bool {
    let (runs, over) = (book[RUNS], book[RUNS] == MOST_RUNS);
    if !are_sizes(book[PARTICIPANTS], book[ISSUES]) || runs > MOST_RUNS || book[TRADES] > MOST_TRADES {
        return false;
    }
    let Sizes { participants: n, issues: m } = Sizes::of(book);
    let rows_fit = |table: usize, fits: &dyn Fn(&[u64]) -> bool| (0..n).all(|p| fits(&book[row(table, p, m)]));
    codes_right(&book[codes(m)])
        && terms_fit(&book[all_terms(m)])
        && rows_fit(RECEIPTS, &|row| at_most(row, RECEIPT))
        && marks_fit(&book[all_marks(PAIRS)], n, MOST_PARTICIPANTS)
        && positions_fit(book, n, if over { 0 } else { POSITION })
        && rows_fit(NOTICES, &|row| at_most(row, if over { 0 } else { NOTICE }))
        && marks_fit(&book[all_marks(TODAY)], n, MOST_PARTICIPANTS)
        && rows_fit(TALLY, &|row| within(row, runs * TALLY_A_RUN))
}
