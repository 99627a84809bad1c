//! One call on two sides, held together cell by cell.

use crate::calls::{Allocation, Call, Reply};
use crate::layout::{Sizes, ISSUES};
use crate::names::book_place;
use crate::{library::Library, reference::Reference};

/// The reference first: the library is held to it.
pub const SIDES: [(&str, &dyn Allocation); 2] = [("reference", &Reference), ("library", &Library)];

/// What a call came to: the side's name, its reply, the call with its lists as they were left, and the book.
pub struct Made {
    name: &'static str,
    reply: Reply,
    call: Call,
    pub book: Vec<u64>,
}

/// Makes the call on a copy of the book.
pub fn made(name: &'static str, call: &Call, book: &[u64], make: impl FnOnce(&mut Call, &mut [u64]) -> Reply) -> Made {
    let (mut call, mut book) = (call.clone(), book.to_vec());
    let reply = make(&mut call, &mut book);
    Made { name, reply, call, book }
}

/// The first place that differs, of the book and then of the lists, in words, with both numbers. A list goes by the day's sizes, where there is a
/// book to tell them.
fn difference(one: &Made, other: &Made) -> String {
    let told = |place: String, a: u64, b: u64| format!("{place}: {} {}, {} {}", one.name, a as i64, other.name, b as i64);
    if let Some(k) = first(&one.book, &other.book) {
        return told(book_place(k), one.book[k], other.book[k]);
    }
    let sizes = if one.book.len() > ISSUES { Sizes::of(&one.book) } else { Sizes::LARGEST };
    for ((table, list), (_, other_list)) in one.call.written().into_iter().zip(other.call.written()) {
        if let Some(k) = first(list, other_list) {
            return told(table.in_words(k, sizes), list[k], other_list[k]);
        }
    }
    "a list that no call writes".to_string()
}

fn first(one: &[u64], other: &[u64]) -> Option<usize> {
    (0..one.len()).find(|&k| one[k] != other[k])
}

/// The message has the call without its lists, and the first place that differs.
fn differ(expected: &Made, other: &Made, call: &Call, seed: u64) -> ! {
    if other.reply != expected.reply {
        panic!("seed {seed}: {call}\n{}: {}; {}: {}", expected.name, expected.reply, other.name, other.reply);
    }
    panic!("seed {seed}: {call}\n{}; first difference: {}", expected.reply, difference(expected, other));
}

/// Panics where two sides differ.
pub fn hold(expected: &Made, other: &Made, call: &Call, seed: u64) {
    if other.reply != expected.reply || other.call != expected.call || other.book != expected.book {
        differ(expected, other, call, seed);
    }
}

/// Makes the call on every side from the same book, and hands back what all of them answer, and the call with its lists as they leave it; the
/// book becomes what all of them leave. A refused call changes no cell of anything.
pub fn agreed(call: &Call, book: &mut Vec<u64>, seed: u64) -> (Reply, Call) {
    let [expected, others @ ..] = SIDES.map(|(name, side)| made(name, call, book, |call, book| side.make(call, book)));
    others.iter().for_each(|other| hold(&expected, other, call, seed));
    if matches!(expected.reply, Reply::Refused(_)) && (expected.call != *call || expected.book != *book) {
        let before = Made { name: "before", reply: expected.reply, call: call.clone(), book: book.clone() };
        differ(&before, &Made { name: "after", ..expected }, call, seed);
    }
    *book = expected.book;
    (expected.reply, expected.call)
}
