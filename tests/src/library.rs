//! A safe wrapper over the exports of include/allocation.h.

use crate::calls::{Allocation, Call, Reply};
use crate::header;
use crate::paper::Refusal;

mod exports {
    #[allow(clippy::too_many_arguments)]
    extern "C" {
        pub fn allocation_book_length() -> u64;
        pub fn allocation_open(
            participants: u64,
            issues: u64,
            codes: *const u8,
            codes_length: usize,
            terms: *const u64,
            terms_length: usize,
            receipts: *const u64,
            receipts_length: usize,
            pairs: *const u64,
            pairs_length: usize,
            book: *mut u64,
            book_length: usize,
        ) -> u64;
        pub fn allocation_trade(book: *mut u64, book_length: usize, seller: u64, buyer: u64, basket: u64, yen: u64) -> u64;
        pub fn allocation_notice(
            book: *mut u64,
            book_length: usize,
            participant: u64,
            issues: *const u64,
            issues_length: usize,
            lots: *const u64,
            lots_length: usize,
        ) -> u64;
        pub fn allocation_run(
            book: *mut u64,
            book_length: usize,
            draw: *const u64,
            draw_length: usize,
            matches: *mut u64,
            matches_length: usize,
            lines: *mut u64,
            lines_length: usize,
        ) -> u64;
        pub fn allocation_close(
            book: *const u64,
            book_length: usize,
            receipts: *mut u64,
            receipts_length: usize,
            pairs: *mut u64,
            pairs_length: usize,
        ) -> u64;
    }
}

pub fn book_length() -> usize {
    // SAFETY: it is given nothing
    unsafe { exports::allocation_book_length() as usize }
}

/// 0 accepted, a refusal's number, or 2^32 + matches × 2^16 + lines of a run.
fn reply(number: u64) -> Reply {
    if number == header::ACCEPTED as u64 {
        Reply::Accepted
    } else if number >> 32 == 1 {
        Reply::Ran { matches: (number >> 16 & 0xffff) as usize, lines: (number & 0xffff) as usize }
    } else {
        Reply::Refused(Refusal::of(number).unwrap_or_else(|| panic!("{number} is no reply")))
    }
}

pub struct Library;

impl Allocation for Library {
    #[rustfmt::skip] // a pointer stands beside its count
    fn make(&self, call: &mut Call, book: &mut [u64]) -> Reply {
        // SAFETY: a slice is readable, or where it is mutable writable by this call alone, over its length; no two overlap
        reply(unsafe {
            match call {
                Call::Open(o) => exports::allocation_open(
                    o.participants, o.issues,
                    o.codes.as_ptr(), o.codes.len(), o.terms.as_ptr(), o.terms.len(),
                    o.receipts.as_ptr(), o.receipts.len(), o.pairs.as_ptr(), o.pairs.len(),
                    book.as_mut_ptr(), book.len(),
                ),
                Call::Trade { seller, buyer, basket, yen } => {
                    exports::allocation_trade(book.as_mut_ptr(), book.len(), *seller, *buyer, *basket, *yen)
                }
                Call::Notice { participant, issues, lots } => exports::allocation_notice(
                    book.as_mut_ptr(), book.len(), *participant, issues.as_ptr(), issues.len(), lots.as_ptr(), lots.len(),
                ),
                Call::Run { draw, matches, lines } => exports::allocation_run(
                    book.as_mut_ptr(), book.len(), draw.as_ptr(), draw.len(),
                    matches.as_mut_ptr(), matches.len(), lines.as_mut_ptr(), lines.len(),
                ),
                Call::Close { receipts, pairs } => exports::allocation_close(
                    book.as_ptr(), book.len(), receipts.as_mut_ptr(), receipts.len(), pairs.as_mut_ptr(), pairs.len(),
                ),
            }
        })
    }
}
