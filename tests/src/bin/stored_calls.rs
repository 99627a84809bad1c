//! The stored cases of the calls, which come with right answers, through the reference and the library.
//! `stored_calls FILE`: the answers. A line is a call with its reply, and what an accepted one wrote, by the names of tables and places.

use allocation_tests::calls::{Allocation, Call};
use allocation_tests::cases::{cases, usual_day, Case, BEFORE};
use allocation_tests::compare::SIDES;
use allocation_tests::layout::LENGTH;
use allocation_tests::told::told;
use std::fs::read_to_string;
use std::process::exit;

/// The line of a case that has a name.
fn line(side: &dyn Allocation, case: &Case, book: &mut [u64]) -> Option<String> {
    let (call, name, told) = match case {
        // its reply is not looked at: the openings with a name tell it
        Case::Day(opening) => {
            side.make(&mut Call::Open(opening.clone()), book);
            return None;
        }
        Case::Put(at, value) => {
            book[*at] = *value;
            return None;
        }
        Case::Open(name, opening, length) => {
            let call = Call::Open(opening.clone());
            (call.name(), name, told(side, &call, &mut [BEFORE; LENGTH + 1], *length))
        }
        Case::Made(name, call) => (call.name(), name, told(side, call, book, LENGTH)),
        Case::Book(name, length, changes) => ("book", name, on_book(side, *length, changes)),
    };
    Some(format!("{call}, {name}: {told}\n"))
}

/// A trade and a notice on the usual day's book with these cells set.
fn on_book(side: &dyn Allocation, length: usize, changes: &[(usize, u64)]) -> String {
    let mut cells = [0; LENGTH + 1];
    side.make(&mut Call::Open(usual_day()), &mut cells[..LENGTH]);
    for &(at, value) in changes {
        cells[at] = value;
    }
    let traded = told(side, &Call::Trade { seller: 0, buyer: 1, basket: 2, yen: 1 }, &mut cells, length);
    let noted = told(side, &Call::Notice { participant: 2, issues: vec![1], lots: vec![5] }, &mut cells, length);
    format!("trade {traded}; notice {noted}")
}

fn answers(side: &dyn Allocation) -> String {
    let mut book = vec![0; LENGTH];
    cases().iter().filter_map(|case| line(side, case, &mut book)).collect()
}

fn main() {
    let file = std::env::args().nth(1).expect("the file of the stored answers");
    let stored = read_to_string(&file).unwrap_or_else(|error| panic!("{file}: {error}"));
    let wanted: Vec<&str> = stored.split_inclusive('\n').filter(|line| !line.starts_with('#')).collect();
    for (name, side) in SIDES {
        let given = answers(side);
        let got: Vec<&str> = given.split_inclusive('\n').collect();
        if let Some(k) = (0..wanted.len().max(got.len())).find(|&k| wanted.get(k) != got.get(k)) {
            eprintln!("{name} differs at answer {} of {file}\nwanted {:?}\ngot    {:?}", k + 1, wanted.get(k), got.get(k));
            exit(1);
        }
    }
    println!("stored calls: {} lines; reference and library answer as stored", wanted.len());
}
