//! Runs: prototypes with lists of choices, and what their executions are. The list of tests/answers/runs.txt.
mod companions;
pub mod counts;
mod ends;
mod jumps;
mod list;
mod long;
mod loops;
mod operands;
mod random;
mod skips;
pub mod text;
mod words;

pub use list::{choices, random_choices};
pub use random::prototype as random_prototype;

use crate::execution::{Choice, Prototype};
use list::List;

/// A prototype and the choices that its execution is fed.
#[derive(Debug, Clone, PartialEq, Eq)]
pub struct Run {
    pub label: String,
    pub prototype: Prototype,
    pub choices: Vec<Choice>,
}

/// Hands on the runs of the list.
pub fn each(seed: u64, visit: &mut dyn FnMut(&Run)) {
    let mut list = List::new(seed, visit);
    words::add(&mut list);
    jumps::add(&mut list);
    skips::add(&mut list);
    companions::add(&mut list);
    ends::add(&mut list);
    loops::add(&mut list);
    operands::add(&mut list);
    random::add(&mut list);
    long::add(&mut list);
}

/// A prototype whose figures let all operands of small words be inside, with children of one upvalue, of none and of two.
fn with_words(words: &[u32]) -> Prototype {
    Prototype { constants: 3, upvalues: 2, stack: 8, children: vec![1, 0, 2], words: words.to_vec() }
}
