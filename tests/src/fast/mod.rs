//! The reference made fast, on the flat book: closed forms, sorted keys, bit sets of issues, and no check beyond the paper's.
//! The benchmark holds the library's time to it.

mod filling;
mod issues;
mod matching;
mod order;
mod run;
mod sound;
mod stock;

use crate::calls::{Call, Opening, Reply};
use crate::layout::{self, *};
use crate::paper::{are_sizes, Refusal, AMOUNT, BASKETS, CODE, MOST_ISSUES, MOST_RUNS, MOST_TRADES, NOTICE, POSITION, RECEIPT};
use sound::*;

/// A side that answers what the benchmark measures, and None for any other call, of which it then changes nothing.
pub trait Measured {
    fn measured(&self, call: &mut Call, book: &mut [u64]) -> Option<Reply>;
}

pub struct Fast;

type Book = [u64; LENGTH];

fn sound_book(book: &[u64]) -> Result<&Book, Reply> {
    let book: Option<&Book> = book.try_into().ok();
    book.filter(|book| is_sound(book)).ok_or(Reply::Refused(Refusal::Unsound))
}

fn sound_book_mut(book: &mut [u64]) -> Result<&mut Book, Reply> {
    sound_book(book)?;
    Ok(book.try_into().expect("a book's length"))
}

fn refuse(refusal: Refusal, given: bool) -> Result<(), Reply> {
    if given {
        Err(Reply::Refused(refusal))
    } else {
        Ok(())
    }
}

fn opened(o: &Opening, book: &mut [u64]) -> Result<Reply, Reply> {
    refuse(Refusal::Size, !are_sizes(o.participants, o.issues))?;
    let sizes = o.sizes();
    let (n, m) = (sizes.participants, sizes.issues);
    let lengths = [o.codes.len(), o.terms.len(), o.receipts.len(), o.pairs.len(), book.len()];
    refuse(Refusal::Size, lengths != [sizes.codes(), sizes.terms(), sizes.receipts(), sizes.pairs(), LENGTH])?;
    let mut codes = [0; CODE * MOST_ISSUES];
    for (cell, &byte) in codes.iter_mut().zip(&o.codes) {
        *cell = byte.into();
    }
    let codes = &codes[..sizes.codes()];
    refuse(Refusal::Code, !codes_right(codes))?;
    refuse(Refusal::Term, !terms_fit(&o.terms))?;
    refuse(Refusal::Receipt, !at_most(&o.receipts, RECEIPT) || !marks_fit(&o.pairs, n, n))?;

    book.fill(0);
    book[PARTICIPANTS] = o.participants;
    book[ISSUES] = o.issues;
    book[layout::codes(m)].copy_from_slice(codes);
    book[all_terms(m)].copy_from_slice(&o.terms);
    for p in 0..n {
        book[row(RECEIPTS, p, m)].copy_from_slice(&o.receipts[sizes.row(p)]);
        for basket in 0..BASKETS {
            book[marks(PAIRS, basket, p, n)].copy_from_slice(&o.pairs[sizes.marks(basket, p)]);
        }
    }
    Ok(Reply::Accepted)
}

fn traded(book: &mut [u64], seller: u64, buyer: u64, basket: u64, yen: u64) -> Result<Reply, Reply> {
    let book = sound_book_mut(book)?;
    let n = book[PARTICIPANTS];
    refuse(Refusal::ThreeRuns, book[RUNS] == MOST_RUNS)?;
    refuse(Refusal::NotOfDay, seller >= n || buyer >= n || basket >= BASKETS as u64 || seller == buyer)?;
    refuse(Refusal::Amount, yen == 0 || yen > AMOUNT)?;
    refuse(Refusal::NoIssue, !is_tradable(book, basket as usize))?;
    let [seller, buyer] = [seller, buyer].map(|participant| position(basket as usize, participant as usize));
    let sold = book[seller] as i64 + yen as i64;
    let bought = book[buyer] as i64 - yen as i64;
    refuse(Refusal::Position, sold > POSITION as i64 || bought < -(POSITION as i64))?;
    refuse(Refusal::Trades, book[TRADES] == MOST_TRADES)?;
    book[seller] = sold as u64;
    book[buyer] = bought as u64;
    book[TRADES] += 1;
    Ok(Reply::Accepted)
}

fn noted(book: &mut [u64], participant: u64, issues: &[u64], lots: &[u64]) -> Result<Reply, Reply> {
    let book = sound_book_mut(book)?;
    let m = book[ISSUES];
    refuse(Refusal::ThreeRuns, book[RUNS] == MOST_RUNS)?;
    refuse(Refusal::NotOfDay, participant >= book[PARTICIPANTS])?;
    refuse(Refusal::Entries, issues.is_empty() || issues.len() != lots.len())?;
    let mut named = 0u32;
    for &issue in issues {
        refuse(Refusal::Entries, issue >= m || named >> issue & 1 == 1)?;
        named |= 1 << issue;
    }
    refuse(Refusal::Lots, !at_most(lots, NOTICE))?;
    let row = &mut book[row(NOTICES, participant as usize, m as usize)];
    row.fill(0);
    for (&issue, &lots) in issues.iter().zip(lots) {
        row[issue as usize] = lots;
    }
    Ok(Reply::Accepted)
}

fn ran(book: &mut [u64], draw: &[u64], matches: &mut [u64], lines: &mut [u64]) -> Result<Reply, Reply> {
    let book = sound_book_mut(book)?;
    let n = book[PARTICIPANTS];
    refuse(Refusal::ThreeRuns, book[RUNS] == MOST_RUNS)?;
    let named = draw.iter().fold(0u64, |named, &p| named | if p < n { 1 << p } else { 0 });
    refuse(Refusal::Draw, draw.len() as u64 != n || named != (1 << n) - 1)?;
    refuse(Refusal::ShortList, matches.len() < MATCHES || lines.len() < LINES)?;
    Ok(run::run(book, draw, matches, lines))
}

fn closed(book: &[u64], receipts: &mut [u64], pairs: &mut [u64]) -> Result<Reply, Reply> {
    let book = sound_book(book)?;
    let sizes = Sizes::of(book);
    let (n, m) = (sizes.participants, sizes.issues);
    refuse(Refusal::FewRuns, book[RUNS] < MOST_RUNS)?;
    refuse(Refusal::ShortList, receipts.len() < sizes.receipts() || pairs.len() < sizes.pairs())?;
    for p in 0..n {
        for (cell, &lots) in receipts[sizes.row(p)].iter_mut().zip(&book[row(TALLY, p, m)]) {
            *cell = (lots as i64).max(0) as u64;
        }
        for basket in 0..BASKETS {
            pairs[sizes.marks(basket, p)].copy_from_slice(&book[marks(TODAY, basket, p, n)]);
        }
    }
    Ok(Reply::Accepted)
}

fn either(result: Result<Reply, Reply>) -> Reply {
    result.unwrap_or_else(|refused| refused)
}

// not inlined: callgrind counts each by its name
impl Fast {
    #[inline(never)]
    fn open(opening: &Opening, book: &mut [u64]) -> Reply {
        either(opened(opening, book))
    }

    #[inline(never)]
    fn trade(book: &mut [u64], seller: u64, buyer: u64, basket: u64, yen: u64) -> Reply {
        either(traded(book, seller, buyer, basket, yen))
    }

    #[inline(never)]
    fn notice(book: &mut [u64], participant: u64, issues: &[u64], lots: &[u64]) -> Reply {
        either(noted(book, participant, issues, lots))
    }

    #[inline(never)]
    fn run(book: &mut [u64], draw: &[u64], matches: &mut [u64], lines: &mut [u64]) -> Reply {
        either(ran(book, draw, matches, lines))
    }

    #[inline(never)]
    fn close(book: &[u64], receipts: &mut [u64], pairs: &mut [u64]) -> Reply {
        either(closed(book, receipts, pairs))
    }
}

impl Measured for Fast {
    fn measured(&self, call: &mut Call, book: &mut [u64]) -> Option<Reply> {
        Some(match call {
            Call::Open(opening) => Fast::open(opening, book),
            Call::Trade { seller, buyer, basket, yen } => Fast::trade(book, *seller, *buyer, *basket, *yen),
            Call::Notice { participant, issues, lots } => Fast::notice(book, *participant, issues, lots),
            Call::Run { draw, matches, lines } => Fast::run(book, draw, matches, lines),
            Call::Close { receipts, pairs } => Fast::close(book, receipts, pairs),
        })
    }
}
