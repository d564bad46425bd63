//! The list under construction: labels, buffer lengths, and luad's answer for each image.
use crate::calls::{answer, calls_for, Calls};
use crate::image::{Buffers, Image, BINDING_BYTES, DIAGNOSTIC_BYTES, ROLE_BYTES};
use crate::judge::Answer;
use crate::rng::Rng;
use std::collections::HashMap;

/// How an image's buffer lengths are chosen.
#[derive(Debug, Clone, Copy)]
pub enum Plan {
    /// By chance: mostly exact or with spare bytes, sometimes short.
    Varied,
    /// The exact lengths changed by these numbers of bytes, for roles, bindings and diagnostics.
    Near([i64; 3]),
    /// These lengths.
    Lengths(Buffers),
}

/// Takes images in, judges them and hands them on.
pub struct List<'a> {
    pub rng: Rng,
    numbers: HashMap<&'static str, usize>,
    visit: &'a mut dyn FnMut(&Image, &Calls),
}

/// The lengths that luad's answer needs; for a refused image, some that would do.
fn exact(image: &Image, answer: Option<&Answer>) -> [usize; 3] {
    let (bindings, diagnostics) = answer.map_or((3, 10), |answer| (answer.bindings.len(), answer.diagnostics.len()));
    [ROLE_BYTES * (image.words.len() / 4), BINDING_BYTES * bindings, DIAGNOSTIC_BYTES * diagnostics]
}

/// The lengths changed by these numbers of bytes, but not below 0.
fn changed(lengths: [usize; 3], changes: [i64; 3]) -> Buffers {
    let [roles, bindings, diagnostics] = [0, 1, 2].map(|i| (lengths[i] as i64 + changes[i]).max(0) as usize);
    Buffers { roles, bindings, diagnostics }
}

impl<'a> List<'a> {
    pub fn new(seed: u64, visit: &'a mut dyn FnMut(&Image, &Calls)) -> Self {
        Self { rng: Rng::new(seed), numbers: HashMap::new(), visit }
    }

    /// Changes to the exact lengths, by chance.
    fn varied(&mut self) -> [i64; 3] {
        let rng = &mut self.rng;
        let spare = [0, 1, 2].map(|_| i64::from(rng.below(40)));
        match rng.below(40) {
            0..=23 => [0, 0, 0],
            24..=29 => spare,
            30 => [-1, 0, 0],
            31 => [-1, -1, -1],
            32 => [0, -1, 0],
            33 | 34 => [0, 0, -1],
            35 => [0, -1, -1],
            36 => [0, -12, -16],
            37 => [7, 11, 15],
            38 => [0, i64::from(i32::MIN), i64::from(i32::MIN)],
            _ => [i64::from(i32::MIN); 3],
        }
    }

    /// Adds an image under its family's name and next number, and gives luad's answer.
    pub fn push(&mut self, family: &'static str, plan: Plan, mut image: Image) -> Option<Answer> {
        let number = self.numbers.entry(family).or_insert(0);
        *number += 1;
        image.label = format!("{family}-{number}");
        let answer = answer(&image);
        let lengths = exact(&image, answer.as_ref());
        image.buffers = match plan {
            Plan::Varied => changed(lengths, self.varied()),
            Plan::Near(changes) => changed(lengths, changes),
            Plan::Lengths(buffers) => buffers,
        };
        let calls = calls_for(&image, answer);
        (self.visit)(&image, &calls);
        calls.answer
    }

    /// Adds an image with buffer lengths by chance.
    pub fn add(&mut self, family: &'static str, image: Image) -> Option<Answer> {
        self.push(family, Plan::Varied, image)
    }
}
