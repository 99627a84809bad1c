//! The answers of one side to a day file: enough of them to hold it to the stored days.

use super::{lines, show::shown, Line};
use crate::calls::{Allocation, Call, Opening, Reply};
use crate::layout::{entry, Sizes, LENGTH, LINES, MATCHES};
use crate::names::letter;
use crate::paper::{BASKETS, CODE};

struct Reader<'a> {
    side: &'a dyn Allocation,
    opening: Opening,
    /// the codes of the day that stands
    codes: Vec<String>,
    book: Vec<u64>,
    answers: Vec<String>,
}

/// The answers to a day file.
pub fn answers(side: &dyn Allocation, text: &str) -> Vec<String> {
    let mut reader = Reader { side, opening: Opening::default(), codes: vec![], book: vec![0; LENGTH], answers: vec![] };
    lines(text).into_iter().for_each(|line| reader.line(line));
    reader.answers
}

/// The codes of an opening.
fn codes_of(opening: &Opening) -> Vec<String> {
    let count = opening.codes.len() / CODE;
    (0..count).map(|issue| String::from_utf8_lossy(&opening.codes[entry(CODE, issue)]).into_owned()).collect()
}

/// An issue by its number or its code.
fn issue(word: &str, codes: &[String]) -> u64 {
    match codes.iter().position(|code| code == word) {
        Some(issue) => issue as u64,
        None => word.parse().unwrap_or_else(|_| panic!("{word} is no issue")),
    }
}

impl Reader<'_> {
    fn line(&mut self, line: Line) {
        match line {
            Line::Day { participants, issues } => self.begin(participants, issues),
            Line::Issue { code, terms } => {
                self.opening.codes.extend(code.bytes());
                self.opening.terms.extend(terms);
            }
            Line::Receipt { participant, issue: word, lots } => {
                let issue = issue(&word, &codes_of(&self.opening));
                let place = self.opening.sizes().receipt(participant as usize, issue as usize);
                self.opening.receipts[place] = lots;
            }
            Line::Pair { basket, deliverer, receiver } => {
                let place = self.opening.sizes().pair(basket as usize, deliverer as usize, receiver as usize);
                self.opening.pairs[place] = 1;
            }
            Line::Open => self.open(),
            Line::Trade { seller, buyer, basket, yen } => {
                self.call(Call::Trade { seller, buyer, basket, yen }, "traded");
            }
            Line::Notice { participant, entries } => {
                let (issues, lots) = entries.iter().map(|(word, lots)| (issue(word, &self.codes), lots)).unzip();
                self.call(Call::Notice { participant, issues, lots }, "noted");
            }
            Line::Run { draw } => self.run(draw),
            Line::Close => self.close(),
            Line::Show => self.answers.extend(shown(&self.book, &self.codes)),
        }
    }

    fn begin(&mut self, participants: u64, issues: u64) {
        self.opening = Opening { participants, issues, ..Opening::default() };
        let sizes = self.opening.sizes();
        self.opening.receipts = vec![0; sizes.receipts()];
        self.opening.pairs = vec![0; sizes.pairs()];
    }

    fn say(&mut self, answer: String) {
        self.answers.push(answer);
    }

    /// Makes the call, says the word or the refusal, and hands back an accepted one with its reply.
    fn call(&mut self, mut call: Call, word: &str) -> Option<(Call, Reply)> {
        let reply = self.side.make(&mut call, &mut self.book);
        match reply {
            Reply::Accepted => self.say(word.to_string()),
            Reply::Ran { matches, lines } => self.say(format!("{word} {matches} {lines}")),
            Reply::Refused(refusal) => {
                self.say(format!("refused {}: {}", refusal.number(), refusal.words()));
                return None;
            }
        }
        Some((call, reply))
    }

    fn open(&mut self) {
        if self.call(Call::Open(self.opening.clone()), "opened").is_some() {
            self.codes = codes_of(&self.opening);
        }
    }

    fn run(&mut self, draw: Vec<u64>) {
        let call = Call::Run { draw, matches: vec![0; MATCHES], lines: vec![0; LINES] };
        let Some((call, reply)) = self.call(call, "ran") else { return };
        let (matches, lines) = call.entries(reply);
        for (k, entry) in matches.iter().enumerate() {
            let forced = if entry.forced_lots == 0 { "-" } else { &self.codes[entry.forced_issue] };
            let parties = format!("{} {} {}", letter(entry.basket as u64), entry.deliverer, entry.receiver);
            self.say(format!("match {k} {parties} {} {} {forced} {}", entry.matched, entry.covered, entry.forced_lots));
        }
        for entry in lines {
            self.say(format!("line {} {} {}", entry.number, self.codes[entry.issue], entry.lots));
        }
    }

    fn close(&mut self) {
        let sizes @ Sizes { participants, issues } = Sizes::of(&self.book);
        let call = Call::Close { receipts: vec![0; sizes.receipts()], pairs: vec![0; sizes.pairs()] };
        let Some((Call::Close { receipts, pairs }, _)) = self.call(call, "closed") else { return };
        for p in 0..participants {
            for i in (0..issues).filter(|&i| receipts[sizes.receipt(p, i)] > 0) {
                self.say(format!("receipt {p} {} {}", self.codes[i], receipts[sizes.receipt(p, i)]));
            }
        }
        for basket in 0..BASKETS {
            for deliverer in 0..participants {
                for receiver in (0..participants).filter(|&receiver| pairs[sizes.pair(basket, deliverer, receiver)] > 0) {
                    self.say(format!("pair {} {deliverer} {receiver}", letter(basket as u64)));
                }
            }
        }
    }
}
