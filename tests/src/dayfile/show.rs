//! What `show` answers: what stands in the book and is not 0.

use crate::layout::{lots, mark, position, Sizes, NOTICES, RUNS, TALLY, TODAY, TRADES};
use crate::names::letter;
use crate::paper::BASKETS;

pub fn shown(book: &[u64], codes: &[String]) -> Vec<String> {
    let sizes = Sizes::of(book);
    if sizes.participants == 0 {
        return vec!["no day".to_string()];
    }
    let counts = vec![format!("runs {}", book[RUNS]), format!("trades {}", book[TRADES])];
    [counts, positions(book, sizes), notified(book, sizes, codes), tally(book, sizes, codes), paired(book, sizes)].concat()
}

fn positions(book: &[u64], sizes: Sizes) -> Vec<String> {
    let of = |p: usize, basket: usize| (format!("position {p} {}", letter(basket as u64)), book[position(basket, p)] as i64);
    (0..sizes.participants).flat_map(|p| (0..BASKETS).map(move |basket| of(p, basket))).filter_map(not_zero).collect()
}

fn notified(book: &[u64], sizes: Sizes, codes: &[String]) -> Vec<String> {
    let of = |(p, i): (usize, usize)| (format!("notified {p} {}", codes[i]), book[lots(NOTICES, p, i)]);
    by_issue(sizes).map(of).filter_map(not_zero).collect()
}

fn tally(book: &[u64], sizes: Sizes, codes: &[String]) -> Vec<String> {
    let of = |(p, i): (usize, usize)| (format!("tally {p} {}", codes[i]), book[lots(TALLY, p, i)] as i64);
    by_issue(sizes).map(of).filter_map(not_zero).collect()
}

fn paired(book: &[u64], sizes: Sizes) -> Vec<String> {
    let n = sizes.participants;
    let pairs = (0..BASKETS).flat_map(|basket| (0..n).flat_map(move |from| (0..n).map(move |to| (basket, from, to))));
    let today = pairs.filter(|&(basket, from, to)| book[mark(TODAY, basket, from, to)] > 0);
    today.map(|(basket, from, to)| format!("paired {} {from} {to}", letter(basket as u64))).collect()
}

/// Every participant with every issue.
fn by_issue(sizes: Sizes) -> impl Iterator<Item = (usize, usize)> {
    (0..sizes.participants).flat_map(move |p| (0..sizes.issues).map(move |i| (p, i)))
}

fn not_zero<N: Default + PartialEq + std::fmt::Display>((words, number): (String, N)) -> Option<String> {
    (number != N::default()).then(|| format!("{words} {number}"))
}
