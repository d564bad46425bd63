//! The images that the calls are compared and timed on, each from the same fixed seed.
mod closures;
mod nested;

use answers::image::Image;
use answers::limits::{MAX_ROWS, MAX_WORDS};
use closures::{any_bits, falling, first_and_last, in_random_order, only_last_child, rising, same_last_child};
use nested::{few_words, many_bindings, many_rows, real_like, valid, wrong_here_and_there, Tree};

const SEED: u64 = 51;
/// Registers that words name.
const STACK: u32 = 64;
/// Constants of a prototype.
const CONSTANTS: u32 = 8;

/// What makes an image, by its name.
pub type Named<F> = (&'static str, F);

/// The images that every call is timed on. Of those called real-like and any bits the words are so often wrong that the
/// diagnostic limit ends the check early.
pub const TIMED: [Named<fn() -> Image>; 14] = [
    ("valid", || valid(MAX_WORDS)),
    ("many rows", || many_rows(MAX_WORDS)),
    ("many rows, 8 words each", || many_rows(131_072)),
    ("few words, by chance", || few_words(Tree::Chance)),
    ("few words, a chain", || few_words(Tree::Chain)),
    ("wrong here and there", || wrong_here_and_there(MAX_WORDS)),
    ("real-like", || real_like(MAX_WORDS)),
    ("same last child", || same_last_child(MAX_WORDS, 0)),
    ("first and last by turns", || first_and_last(MAX_WORDS, MAX_ROWS - 1)),
    ("falling children", || falling(MAX_WORDS, MAX_ROWS - 1)),
    ("children in random order", || in_random_order(MAX_WORDS, MAX_ROWS - 1)),
    ("same last child, 255 upvalues", || same_last_child(MAX_WORDS, 255)),
    ("many bindings", || many_bindings(MAX_WORDS)),
    ("any bits", any_bits),
];

/// The images that the calls are only compared on.
pub const COMPARED: [Named<fn() -> Image>; 4] = [
    ("same last child, 2 upvalues", || same_last_child(MAX_WORDS, 2)),
    ("only the last child has upvalues", || only_last_child(MAX_WORDS, 255)),
    ("same missing child", closures::same_missing_child),
    ("rising children", rising),
];

/// Images of any number of words, with rows in proportion, whose times show how they grow.
pub const GROWTH: [Named<fn(usize) -> Image>; 6] = [
    ("valid", valid),
    ("wrong here and there", wrong_here_and_there),
    ("same last child", |words| same_last_child(words, 0)),
    ("first and last by turns", |words| first_and_last(words, children_for(words))),
    ("falling children", |words| falling(words, children_for(words))),
    ("children in random order", |words| in_random_order(words, children_for(words))),
];

/// A number of children in proportion to the words: with the main row, 16,384 rows for 1,048,576 words.
fn children_for(words: usize) -> usize {
    words * MAX_ROWS / MAX_WORDS - 1
}
