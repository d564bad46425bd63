//! Counts over a list, by family, diagnostic code, verdict and refusal.
use crate::calls::{Calls, Outcome};
use crate::image::Image;
use crate::message::CODES;
use luad::diagnostic::Verdict;
use std::fmt;

#[derive(Default)]
pub struct Counts {
    images: usize,
    accepted: usize,
    families: Vec<(String, usize)>,
    /// By code number: images and diagnostics that have it.
    codes: [(usize, usize); CODES.len() + 1],
    /// Images whose check call gives a verdict, by verdict.
    verdicts: [usize; 3],
    /// By refusal number, 0 for none: answers of the roles, bindings and check calls.
    refusals: [[usize; 3]; 9],
}

fn refusal(outcome: Outcome) -> usize {
    outcome.map_or_else(|refused| refused.refusal as usize, |_| 0)
}

impl Counts {
    fn add_family(&mut self, label: &str) {
        let family = label.rsplit_once('-').map_or(label, |(family, _)| family);
        match self.families.iter_mut().find(|(name, _)| name == family) {
            Some((_, count)) => *count += 1,
            None => self.families.push((family.to_string(), 1)),
        }
    }

    pub fn add(&mut self, image: &Image, calls: &Calls) {
        self.images += 1;
        self.add_family(&image.label);
        for (call, outcome) in [calls.roles, calls.bindings, calls.check].into_iter().enumerate() {
            self.refusals[refusal(outcome)][call] += 1;
        }
        let Some(answer) = &calls.answer else { return };
        self.accepted += 1;
        if calls.check.is_ok() {
            self.verdicts[answer.verdict as usize] += 1;
        }
        for code in 1..=CODES.len() {
            let found = answer.diagnostics.iter().filter(|diagnostic| diagnostic[2] as usize == code).count();
            self.codes[code].0 += usize::from(found > 0);
            self.codes[code].1 += found;
        }
    }
}

impl fmt::Display for Counts {
    fn fmt(&self, f: &mut fmt::Formatter) -> fmt::Result {
        writeln!(f, "images {}, without refusals 1 to 6 {}", self.images, self.accepted)?;
        for (family, count) in &self.families {
            writeln!(f, "family {family} {count}")?;
        }
        for (number, name) in CODES.iter().enumerate() {
            let (images, diagnostics) = self.codes[number + 1];
            writeln!(f, "code {} {name} images {images} diagnostics {diagnostics}", number + 1)?;
        }
        for verdict in [Verdict::ValidForParser, Verdict::Incomplete, Verdict::Invalid] {
            writeln!(f, "verdict {verdict:?} {}", self.verdicts[verdict as usize])?;
        }
        for (number, [roles, bindings, check]) in self.refusals.iter().enumerate() {
            writeln!(f, "refusal {number} roles {roles} bindings {bindings} check {check}")?;
        }
        Ok(())
    }
}
