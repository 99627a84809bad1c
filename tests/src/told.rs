//! A call told as the stored answers have it: its reply, and what an accepted one wrote, by the names of tables and places.

use crate::calls::{Allocation, Call, Opening, Reply};
use crate::layout::{all_terms, codes, entry, marks, row, Sizes, ISSUES, LENGTH, PAIRS, PARTICIPANTS, RECEIPTS};
use crate::names::{By, Table, TABLES};
use crate::paper::{BASKETS, CODE, MOST_ISSUES};

/// The reply to a call on a book of so many of these cells, and what an accepted one wrote. A refused call must change nothing, and no call what is
/// past the book.
pub fn told(side: &dyn Allocation, call: &Call, cells: &mut [u64], length: usize) -> String {
    let (before, mut made) = (cells.to_vec(), call.clone());
    match side.make(&mut made, &mut cells[..length]) {
        Reply::Accepted if before[length..] == cells[length..] => match call {
            Call::Open(given) => format!("accepted{}", opened(given, cells)),
            _ => format!("accepted{}{}", changed(&before, cells), written(call, &made, cells)),
        },
        reply @ Reply::Refused(_) if before == cells && made == *call => reply.to_string(),
        reply => format!("{reply}, AND CHANGED WHAT STAYS"),
    }
}

/// The cells of a table that are to be shown, on a day of these sizes, as `, positions C 0: 1, C 1: -1`.
fn shown(table: &Table, cells: &[u64], sizes: Sizes, which: impl Fn(usize) -> bool) -> String {
    let places = table.places(sizes);
    let text = |k: usize| match table.by {
        [] => format!(" {}", cells[k] as i64),
        _ => format!(" {}: {}", table.short(k, sizes), cells[k] as i64),
    };
    let own: Vec<String> = (places.start..places.end.min(cells.len())).filter(|&k| which(k)).map(text).collect();
    match own[..] {
        [] => String::new(),
        _ => format!(", {}{}", table.name, own.join(",")),
    }
}

/// The cells of the book that a call changed, as they are then.
fn changed(before: &[u64], after: &[u64]) -> String {
    TABLES.iter().map(|table| shown(table, after, Sizes::LARGEST, |k| before[k] != after[k])).collect()
}

/// The cells of the lists that a call wrote: of entries those that it changed, of other lists those that are not 0, and what is past them.
fn written(before: &Call, after: &Call, book: &[u64]) -> String {
    let sizes = Sizes::of(book);
    let mut text = String::new();
    for ((table, list), (_, old)) in after.written().into_iter().zip(before.written()) {
        let by_entry = table.by.first() == Some(&By::Entry);
        text += &shown(&table, list, sizes, |k| if by_entry { list[k] != old[k] } else { list[k] != 0 });
        text.extend(list.iter().skip(table.places(sizes).end).map(|cell| format!(", past them {cell}")));
    }
    text
}

/// Every table of an opened book, held to what document 01 asks: its cells that are not 0, and last the tables that are 0.
fn opened(given: &Opening, cells: &[u64]) -> String {
    let asked = asked(given);
    let (mut text, mut zero) = (String::new(), vec![]);
    for table in TABLES {
        let places = table.places(Sizes::LARGEST);
        let own = &cells[places.clone()];
        if *own != asked[places] {
            text += &format!(", {} NOT AS ASKED", table.name);
        } else if own.iter().all(|&cell| cell == 0) {
            zero.push(table.name);
        } else if table.by.first() == Some(&By::Issue) {
            text += &format!(", {} {}", table.name, by_issue(own, given.issues as usize));
        } else {
            text += &shown(&table, cells, Sizes::LARGEST, |k| cells[k] != 0);
        }
    }
    format!("{text}; 0 in {}", zero.join(", "))
}

/// The book that document 01 asks of an opening: the data as given, all else 0.
fn asked(given: &Opening) -> Vec<u64> {
    let sizes @ Sizes { participants, issues } = given.sizes();
    let mut book = vec![0; LENGTH];
    book[PARTICIPANTS] = given.participants;
    book[ISSUES] = given.issues;
    book[codes(issues)].copy_from_slice(&given.codes.iter().map(|&byte| byte.into()).collect::<Vec<u64>>());
    book[all_terms(issues)].copy_from_slice(&given.terms);
    for p in 0..participants {
        book[row(RECEIPTS, p, issues)].copy_from_slice(&given.receipts[sizes.row(p)]);
    }
    for basket in 0..BASKETS {
        for deliverer in 0..participants {
            book[marks(PAIRS, basket, deliverer, participants)].copy_from_slice(&given.pairs[sizes.marks(basket, deliverer)]);
        }
    }
    book
}

/// Codes or terms, issue by issue; of a long table the first and the last.
fn by_issue(cells: &[u64], issues: usize) -> String {
    let width = cells.len() / MOST_ISSUES;
    let text = |issue: usize| match &cells[entry(width, issue)] {
        code if width == CODE => code.iter().map(|&byte| char::from(byte as u8)).collect(),
        terms => terms.iter().map(u64::to_string).collect::<Vec<_>>().join(" "),
    };
    let rows: Vec<String> = (0..issues).map(text).collect();
    match rows.as_slice() {
        [first, .., last] if issues > 3 => format!("{first} to {last}, all {issues} as given"),
        _ => rows.join(" / "),
    }
}
