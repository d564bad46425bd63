//! The list under construction: labels and chances; nothing stands in it twice.
use super::Run;
use crate::execution::{Choice, Prototype};
use crate::rng::Rng;
use std::collections::{HashMap, HashSet};

/// Takes runs in and hands them on.
pub struct List<'a> {
    pub rng: Rng,
    numbers: HashMap<&'static str, usize>,
    seen: HashSet<(Prototype, Vec<Choice>)>,
    visit: &'a mut dyn FnMut(&Run),
}

impl<'a> List<'a> {
    pub fn new(seed: u64, visit: &'a mut dyn FnMut(&Run)) -> Self {
        Self { rng: Rng::new(seed), numbers: HashMap::new(), seen: HashSet::new(), visit }
    }

    /// Adds a run under its family's name and next number, if it is not in the list already.
    pub fn add(&mut self, family: &'static str, prototype: &Prototype, choices: Vec<Choice>) {
        if !self.seen.insert((prototype.clone(), choices.clone())) {
            return;
        }
        let number = self.numbers.entry(family).or_insert(0);
        *number += 1;
        let label = format!("{family}-{number}");
        (self.visit)(&Run { label, prototype: prototype.clone(), choices });
    }

    /// Adds a run for each list of choices, which is written as a text of 0 for on and 1 for off.
    pub fn add_each(&mut self, family: &'static str, prototype: &Prototype, lists: &[&str]) {
        for list in lists {
            self.add(family, prototype, choices(list));
        }
    }
}

/// The choices of a text: 0 for on, 1 for off.
pub fn choices(text: &str) -> Vec<Choice> {
    text.bytes().map(|byte| if byte == b'0' { Choice::On } else { Choice::Off }).collect()
}

/// A list of choices by chance, in which to go on has a chance of its own.
pub fn random_choices(rng: &mut Rng, len: u32) -> Vec<Choice> {
    let on = rng.pick(&[0, 1, 4, 4, 4, 4, 7, 8]);
    (0..len).map(|_| if rng.below(8) < on { Choice::On } else { Choice::Off }).collect()
}
