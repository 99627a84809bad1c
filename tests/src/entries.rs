//! What stands in an entry of the lists of a run.

/// An entry of the first list of a run.
#[derive(Clone, Copy, Debug)]
pub struct Match {
    pub basket: usize,
    pub deliverer: usize,
    pub receiver: usize,
    pub matched: u64,
    pub covered: u64,
    pub forced_issue: usize,
    pub forced_lots: u64,
}

impl Match {
    pub fn read(numbers: &[u64]) -> Match {
        let [basket, deliverer, receiver, matched, covered, forced_issue, forced_lots] = numbers.try_into().expect("a match");
        let [basket, deliverer, receiver, forced_issue] = [basket, deliverer, receiver, forced_issue].map(|number: u64| number as usize);
        Match { basket, deliverer, receiver, matched, covered, forced_issue, forced_lots }
    }
}

/// An entry of the second list of a run.
#[derive(Clone, Copy, Debug)]
pub struct Line {
    pub number: usize,
    pub issue: usize,
    pub lots: u64,
}

impl Line {
    pub fn read(numbers: &[u64]) -> Line {
        let [number, issue, lots] = numbers.try_into().expect("a line");
        Line { number: number as usize, issue: issue as usize, lots }
    }
}
