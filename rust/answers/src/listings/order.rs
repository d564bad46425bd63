//! Listings with several faults: the first line that is 9 or 10 counts, then the least number from 1 to 8.
use super::{changed, changed_in, sample, Named};

/// The sample with several pieces of its text changed, one after the other.
fn with(changes: &[(&str, &str)]) -> Vec<u8> {
    changes.iter().fold(sample(), |text, (from, to)| changed_in(&text, from, to))
}

/// A word that is out of form, in the last line.
const BAD_WORD: (&str, &str) = ("0080001e", "0080001E");

/// The only row.
const ROW: &str = "0 2 1 0 2\n";

pub fn order() -> Vec<Named> {
    vec![
        ("order-9-twice-2-4", with(&[("0 0\n", "00 0\n"), (ROW, "0 2 1 0\n")])),
        ("order-9-twice-4-7", with(&[(ROW, "0 2 1 0\n"), BAD_WORD])),
        ("order-9-twice-6-7", with(&[("00004001", "00004001 "), BAD_WORD])),
        ("order-9-before-1", with(&[(ROW, ""), BAD_WORD])),
        ("order-9-before-1-cut", with(&[(ROW, ""), ("0080001e\n", "0080001e")])),
        ("order-9-before-4", with(&[(ROW, "1 2 1 0 2\n"), BAD_WORD])),
        ("order-9-before-4-row", with(&[(ROW, "0 2 1 0 2\n3 0 0 0 2\n01 0 0 0 2\n")])),
        ("order-9-before-5", with(&[(ROW, "0 2 1 0 256\n"), BAD_WORD])),
        ("order-9-before-6", with(&[(ROW, "0 1 1 0 2\n"), BAD_WORD])),
        ("order-9-before-6-cut", with(&[("0080001e\n", "0080001e\n00")])),
        ("order-4-before-5", with(&[(ROW, "0 2 1 0 256\n2 0 0 0 2\n")])),
        ("order-4-before-5-same-row", with(&[(ROW, "0 2 1 0 2\n2 0 0 256 2\n")])),
        ("order-4-before-6", with(&[(ROW, "0 3 1 0 2\n0 0 0 0 2\n")])),
        ("order-5-before-6", with(&[(ROW, "0 3 1 0 2\n1 0 2147483648 0 2\n")])),
        ("order-1-before-6", changed("0 2 1 0 2\nword\n00004001\n", "word\n")),
    ]
}
