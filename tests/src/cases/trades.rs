//! Trades: amounts, parties, baskets, positions, the count, and which refusal comes first.

use super::Case::{self, Put};
use super::{large_day, minus, small_day, trade};
use crate::layout::{position, term, RUNS, TRADES};
use crate::paper::{AMOUNT, INTEREST, MOST_RUNS, MOST_TRADES, REDEEMED};

pub fn cases() -> Vec<Case> {
    vec![
        small_day(),
        trade("amount 0", 0, 1, 2, 0),
        trade("amount 1", 0, 1, 2, 1),
        trade("amount 10^12", 0, 1, 2, AMOUNT),
        trade("amount 10^12 + 1", 0, 1, 2, AMOUNT + 1),
        trade("amount as large as can be", 0, 1, 2, u64::MAX),
        trade("the buyer sells on", 1, 2, 2, 400_000_000_000),
        trade("back to zero", 2, 1, 2, 400_000_000_000),
        trade("seller 2", 2, 0, 6, 5),
        trade("seller 3", 3, 0, 6, 5),
        trade("buyer 2", 0, 2, 6, 5),
        trade("buyer 3", 0, 3, 6, 5),
        trade("basket 6", 0, 1, 6, 5),
        trade("basket 7", 0, 1, 7, 5),
        trade("basket as large as can be", 0, 1, u64::MAX, 5),
        trade("seller is buyer", 1, 1, 2, 5),
        trade("basket 0 with one issue, redeemed", 0, 1, 0, 5),
        trade("basket 1 with one issue, redeemed", 0, 1, 1, 5),
        trade("basket 2 with two unmarked issues", 0, 1, 2, 5),
        // the bill is no longer redeemed, then pays interest
        Put(term(2, REDEEMED), 0),
        trade("basket 0 with one issue, unmarked", 0, 1, 0, 5),
        small_day(),
        Put(term(2, REDEEMED), 0),
        Put(term(2, INTEREST), 1),
        trade("basket 0 with one issue, interest paid", 0, 1, 0, 5),
        // which comes first
        trade("seller 3 and amount 0", 3, 0, 2, 0),
        trade("seller is buyer in basket 0", 1, 1, 0, 5),
        trade("basket 0 and amount 0", 0, 1, 0, 0),
        trade("basket 0 and amount 10^12 + 1", 0, 1, 0, AMOUNT + 1),
        // 9 x 10^12 owed by 0, due to 1
        small_day(),
        Put(position(2, 0), 9 * AMOUNT),
        Put(position(2, 1), minus(9 * AMOUNT)),
        trade("position to 10^13 either way", 0, 1, 2, AMOUNT),
        trade("seller beyond 10^13", 0, 2, 2, 1),
        trade("buyer beyond 10^13", 2, 1, 2, 1),
        trade("another basket", 0, 1, 3, 1),
        trade("seller beyond 10^13 and amount 0", 0, 2, 2, 0),
        trade("back by 1", 1, 0, 2, 1),
        trade("seller to 10^13", 0, 2, 2, 1),
        trade("buyer to 10^13", 2, 1, 2, 1),
        Put(TRADES, MOST_TRADES - 1),
        trade("number 10000", 1, 0, 2, 1),
        trade("number 10001", 1, 0, 2, 1),
        trade("number 10001 and seller beyond 10^13", 0, 1, 2, 2),
        trade("number 10001 in basket 0", 0, 1, 0, 1),
        trade("number 10001 and amount 10^12 + 1", 0, 1, 2, AMOUNT + 1),
        trade("number 10001 and buyer 3", 0, 3, 2, 1),
        small_day(),
        Put(RUNS, MOST_RUNS),
        trade("three runs done", 0, 1, 2, 1),
        trade("three runs done and seller is buyer", 0, 0, 2, 1),
        trade("three runs done and amount 0", 0, 1, 2, 0),
        Put(RUNS, MOST_RUNS - 1),
        trade("two runs done", 0, 1, 2, 1),
        large_day(),
        trade("seller 11 of 12", 11, 0, 6, 7),
        trade("seller 12 of 12", 12, 0, 6, 7),
    ]
}
