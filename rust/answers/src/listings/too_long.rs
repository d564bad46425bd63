//! The limits of a listing, and which of 9 and 10 comes first.
use super::{changed_in, rows, words, Named};
use crate::packcheck::{MOST_ROWS, MOST_WORDS};

/// Bytes of a word's line.
const WORD_BYTES: usize = 9;

/// One row too many, with one piece of its text changed.
fn rows_65(from: &str, to: &str) -> Vec<u8> {
    changed_in(&rows(MOST_ROWS + 1), from, to)
}

fn too_many_rows() -> Vec<Named> {
    vec![
        ("rows-64", rows(MOST_ROWS)),
        ("rows-64-cut", changed_in(&rows(MOST_ROWS), "\nword\n", "\n")),
        ("rows-64-cut-in-word", changed_in(&rows(MOST_ROWS), "\nword\n", "\nword")),
        ("rows-65", rows(MOST_ROWS + 1)),
        ("rows-66", rows(MOST_ROWS + 2)),
        ("rows-65-malformed", rows_65("\n64 0 0 0 2\n", "\n64 0 0 0 02\n")),
        ("rows-65-cut", rows_65("\nword\n", "")),
        ("rows-65-no-word", rows_65("\nword\n", "\n")),
        ("rows-65-word-malformed", rows_65("\nword\n", "\nword\n0080001E\n")),
        ("rows-66-malformed", rows_65("\nword\n", "\n64 0 0 0 02\nword\n")),
        ("rows-65-after-malformed", rows_65("\n63 0 0 0 2\n", "\n63 0 0 0 02\n")),
        ("rows-65-after-malformed-incoming", rows_65("\n0 0\n", "\n00 0\n")),
        ("rows-65-depth", rows_65("\n1 0 0 0 2\n", "\n5 0 0 0 2\n")),
        ("rows-65-stack", rows_65("\n64 0 0 0 2\n", "\n64 0 0 0 256\n")),
    ]
}

fn too_many_words() -> Vec<Named> {
    let last = |count: usize, to: &str| [&words(count)[..words(count).len() - WORD_BYTES], to.as_bytes()].concat();
    vec![
        ("words-2048", words(MOST_WORDS)),
        ("words-2049", words(MOST_WORDS + 1)),
        ("words-2049-cut", last(MOST_WORDS + 1, "0080001e")),
        ("words-2049-malformed", last(MOST_WORDS + 1, "0080001E\n")),
        ("words-2050-malformed", last(MOST_WORDS + 2, "0080001E\n")),
    ]
}

pub fn too_long() -> Vec<Named> {
    [too_many_rows(), too_many_words()].concat()
}
