//! The diagnostic limit missed, met and passed by every combination of incoming warnings, incoming errors, diagnostics
//! of stacks and diagnostics of words.
use super::limit::{row, BAD};
use crate::image::{image, image_with, Source};
use crate::judge::judge;
use crate::list::{List, Plan};
use crate::word::{op, setlist_long, RETURN};
use std::ops::RangeInclusive;

const EXACT: Plan = Plan::Near([0; 3]);
/// Numbers of diagnostics, incoming ones included, if the limit ended nothing.
const SUMS: RangeInclusive<u32> = 9_998..=10_001;
/// A word with two diagnostics: CALL whose spans both end past any stack.
const TWO: u32 = op::CALL | 511 << 14 | 511 << 23;
/// A stack with a diagnostic, and one without.
const LARGE: u32 = 251;
const SMALL: u32 = 2;

/// `count` words with one diagnostic each, then the given ones.
fn bad(count: u32, rest: &[u32]) -> Vec<u32> {
    [&vec![BAD; count as usize], rest].concat()
}

/// Images with no diagnostics, with those of stacks, of words, and of both, at the end and before it.
fn templates() -> Vec<Vec<Source>> {
    vec![
        vec![row(0, SMALL, &[])],
        vec![row(0, SMALL, &[RETURN]), row(1, SMALL, &[RETURN])],
        vec![row(0, LARGE, &[])],
        vec![row(0, LARGE, &[RETURN])],
        vec![row(0, LARGE, &[]), row(1, LARGE, &[]), row(1, SMALL, &[])],
        vec![row(0, SMALL, &[BAD])],
        vec![row(0, SMALL, &[TWO])],
        vec![row(0, SMALL, &[BAD, BAD, RETURN]), row(1, SMALL, &[])],
        vec![row(0, LARGE, &[BAD])],
        vec![row(0, LARGE, &[BAD, TWO])],
        vec![row(0, LARGE, &[setlist_long(0, 0)])],
        vec![row(0, SMALL, &[BAD]), row(1, LARGE, &[])],
        vec![row(0, LARGE, &[RETURN]), row(1, LARGE, &[BAD]), row(2, SMALL, &[])],
    ]
}

/// The combinations with incoming diagnostics.
pub fn add_small(list: &mut List) {
    for sources in templates() {
        let own = judge(&image(&sources)).diagnostics.len() as u32;
        for incoming in SUMS.map(|sum| sum - own) {
            for errors in [0, 1, incoming] {
                list.push("mixed", EXACT, image_with(incoming - errors, errors, &sources));
            }
        }
    }
}

/// A main row, and `children` children that each have a diagnostic of the stack and one of a word.
fn both(code: &[u32], children: u32) -> Vec<Source> {
    let mut sources = vec![row(0, SMALL, code)];
    sources.extend(vec![row(1, LARGE, &[BAD]); children as usize]);
    sources
}

/// The combinations without incoming diagnostics. Images with only those of stacks, and nothing after the last, are
/// among the wide ones.
pub fn add_large(list: &mut List) {
    for sum in SUMS {
        let mut stacks = vec![row(0, LARGE, &[])];
        stacks.extend(vec![row(1, LARGE, &[]); sum as usize - 2]);
        stacks.push(row(1, LARGE, &[RETURN]));
        let images = [
            stacks,
            vec![row(0, SMALL, &bad(sum, &[]))],
            vec![row(0, SMALL, &bad(sum, &[RETURN]))],
            vec![row(0, SMALL, &bad(sum - 2, &[TWO]))],
            vec![row(0, LARGE, &bad(sum - 1, &[]))],
            vec![row(0, SMALL, &bad(sum - 1, &[])), row(1, LARGE, &[])],
            vec![row(0, SMALL, &bad(sum - 3, &[])), row(1, LARGE, &[TWO])],
            both(&bad(sum % 2, &[]), sum / 2),
        ];
        for sources in images {
            list.push("mixed", EXACT, image(&sources));
        }
    }
}
