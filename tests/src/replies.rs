//! How often each reply came up in many calls.

use crate::calls::Reply;
use crate::paper::REFUSALS;

#[derive(Default)]
pub struct Replies {
    pub calls: u64,
    refusals: [u64; REFUSALS.len()],
}

impl Replies {
    pub fn count(&mut self, reply: Reply) {
        self.calls += 1;
        if let Reply::Refused(refusal) = reply {
            self.refusals[refusal.index()] += 1;
        }
    }

    pub fn accepted(&self) -> u64 {
        self.calls - self.refusals.iter().sum::<u64>()
    }

    /// `refusals 1 to 16: [2, ..]`
    pub fn told(&self) -> String {
        format!("refusals 1 to {}: {:?}", REFUSALS.len(), self.refusals)
    }

    /// Calls that bring up too little are no evidence.
    pub fn check(&self) {
        for ((refusal, words), &times) in REFUSALS.iter().zip(&self.refusals) {
            assert!(times > 0, "refusal {}, {words}, never came up", refusal.number());
        }
    }
}
