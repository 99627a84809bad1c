//! Notices: entries, lots, and which refusal comes first.

use super::Case::{self, Put};
use super::{large_day, notice, small_day};
use crate::layout::RUNS;
use crate::paper::{MOST_ISSUES, MOST_RUNS, NOTICE};

pub fn cases() -> Vec<Case> {
    let count = MOST_ISSUES as u64;
    let (falling, one_more): (Vec<u64>, Vec<u64>) = ((0..count).rev().collect(), (1..=count).collect());
    let too_many: Vec<u64> = (0..=count).collect();
    vec![
        small_day(),
        notice("three entries", 1, &[2, 0, 1], &[7, 8, 9]),
        notice("another for it, unnamed 0", 1, &[1], &[4]),
        notice("of another sender", 2, &[1], &[6]),
        notice("0 lots", 1, &[1], &[0]),
        notice("participant 3", 3, &[1], &[4]),
        notice("participant as large as can be", u64::MAX, &[1], &[4]),
        notice("no entry", 1, &[], &[]),
        notice("no entry but lots", 1, &[], &[4]),
        notice("lots short", 1, &[0, 1], &[4]),
        notice("lots long", 1, &[1], &[4, 5]),
        notice("issue 2", 1, &[2], &[4]),
        notice("issue 3", 1, &[3], &[4]),
        notice("last issue 3", 1, &[0, 1, 3], &[4, 5, 6]),
        notice("issue as large as can be", 1, &[u64::MAX], &[4]),
        notice("an issue twice", 1, &[0, 1, 0], &[4, 5, 6]),
        notice("lots 200000000", 0, &[0, 2], &[5, NOTICE]),
        notice("lots 200000001", 0, &[0, 2], &[5, NOTICE + 1]),
        notice("first lots 200000001", 0, &[0, 2], &[NOTICE + 1, 5]),
        notice("lots as many as can be", 0, &[0], &[u64::MAX]),
        // which comes first
        notice("first lots 200000001 and last issue 3", 0, &[0, 3], &[NOTICE + 1, 5]),
        notice("first lots 200000001 and an issue twice", 0, &[0, 0], &[NOTICE + 1, 5]),
        notice("participant 3 and no entry", 3, &[], &[]),
        notice("participant 3 and lots 200000001", 3, &[0], &[NOTICE + 1]),
        // three runs done: no notice may stand
        small_day(),
        Put(RUNS, MOST_RUNS),
        notice("three runs done", 0, &[0], &[5]),
        notice("three runs done and participant 3", 3, &[0], &[5]),
        notice("three runs done and no entry", 0, &[], &[]),
        Put(RUNS, MOST_RUNS - 1),
        notice("two runs done", 0, &[0], &[5]),
        large_day(),
        notice("32 entries of 32 issues", 11, &falling, &one_more),
        notice("33 entries of 32 issues", 11, &too_many, &too_many),
        notice("participant 12 of 12", 12, &[0], &[5]),
    ]
}
