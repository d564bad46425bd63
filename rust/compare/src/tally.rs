//! Counts over a run.
use crate::case::Case;
use crate::comparer::{Comparer, LAST_REFUSAL};
use crate::kinds::KINDS;
use answers::judge::Answer;
use answers::message::CODES;
use answers::refusal::image_refusal;
use archive::CALLS;
use std::fmt;

const VERDICTS: [&str; 3] = ["ValidForParser", "Incomplete", "Invalid"];
const ROLES: [&str; 3] = ["instruction", "binding word", "extra word"];
const BINDINGS: [&str; 3] = ["to a register", "to an upvalue", "to nothing"];

/// Images that have something, and how often it occurs in them.
#[derive(Clone, Copy, Default)]
struct Count {
    images: u64,
    all: u64,
}

#[derive(Default)]
pub struct Tally {
    pub images: u64,
    pub differing: u64,
    /// By kind: images, and those without refusals 1 to 6.
    kinds: [[u64; 2]; KINDS.len()],
    /// Images by their own refusal, 1 to 6; 0 without one.
    refusals: [u64; 7],
    verdicts: [u64; 3],
    /// From code 1.
    codes: [Count; CODES.len()],
    roles: [u64; 3],
    bindings: [u64; 3],
}

impl Tally {
    pub fn add(&mut self, kind: usize, case: &Case) {
        self.images += 1;
        self.kinds[kind][0] += 1;
        let refused = match case.answer {
            Some(_) => None,
            None => image_refusal(&case.image.table, &case.image.words),
        };
        self.refusals[refused.map_or(0, |refused| refused.refusal as usize)] += 1;
        if let Some(answer) = &case.answer {
            self.kinds[kind][1] += 1;
            self.add_answer(answer);
        }
    }

    fn add_answer(&mut self, answer: &Answer) {
        self.verdicts[answer.verdict as usize] += 1;
        let mut found = [0; CODES.len()];
        answer.diagnostics.iter().for_each(|[_, _, code, _]| found[*code as usize - 1] += 1);
        for (count, found) in self.codes.iter_mut().zip(found) {
            count.images += u64::from(found > 0);
            count.all += found;
        }
        for role in &answer.roles {
            self.roles[usize::from(role[0] >= 0) + usize::from(role[0] >= 0 && role[1] < 0)] += 1;
        }
        for [instack, _, pc] in &answer.bindings {
            self.bindings[if *pc < 0 { 2 } else { 1 - *instack as usize }] += 1;
        }
    }

    /// The kinds, verdicts, codes, roles and bindings that did not occur. A run that misses one is worth nothing.
    fn missing(&self) -> Vec<String> {
        let mut missing = Vec::new();
        let mut need = |count: u64, name: String| {
            if count == 0 {
                missing.push(name)
            }
        };
        KINDS.iter().zip(self.kinds).for_each(|((name, _), [images, _])| need(images, format!("kind {name}")));
        VERDICTS.iter().zip(self.verdicts).for_each(|(name, count)| need(count, format!("verdict {name}")));
        CODES.iter().zip(self.codes).for_each(|(name, count)| need(count.all, format!("code {name}")));
        ROLES.iter().zip(self.roles).for_each(|(name, count)| need(count, format!("role {name}")));
        BINDINGS.iter().zip(self.bindings).for_each(|(name, count)| need(count, format!("binding {name}")));
        missing
    }
}

/// The refusals, by call, that no call had to answer; the roles call has none of number 8.
fn missing_refusals(comparer: &Comparer) -> Vec<String> {
    let mut missing = Vec::new();
    for call in CALLS {
        let last = if call as usize == 0 { 7 } else { LAST_REFUSAL };
        let never = (0..=last).filter(|refusal| comparer.made[call as usize][*refusal] == 0);
        missing.extend(never.map(|refusal| format!("refusal {refusal} of {call}")));
    }
    missing
}

/// What a run must have and has not.
pub fn missing(tally: &Tally, comparer: &Comparer) -> Vec<String> {
    [tally.missing(), missing_refusals(comparer)].concat()
}

impl fmt::Display for Tally {
    fn fmt(&self, f: &mut fmt::Formatter) -> fmt::Result {
        writeln!(f, "{:<32}{:>10} {:>22}", "kind", "images", "without refusals 1-6")?;
        for ((name, _), [images, judged]) in KINDS.iter().zip(self.kinds) {
            writeln!(f, "{name:<32}{images:>10} {judged:>22}")?;
        }
        writeln!(f, "\n{:<32}{:>10}", "the image's own refusal", "images")?;
        for (refusal, images) in self.refusals.iter().enumerate() {
            writeln!(f, "{:<32}{images:>10}", if refusal == 0 { "none".to_string() } else { refusal.to_string() })?;
        }
        writeln!(f, "\n{:<32}{:>10}", "verdict", "images")?;
        for (name, images) in VERDICTS.iter().zip(self.verdicts) {
            writeln!(f, "{name:<32}{images:>10}")?;
        }
        writeln!(f, "\n{:<32}{:>10} {:>22}", "code", "images", "diagnostics")?;
        for (number, (name, count)) in CODES.iter().zip(self.codes).enumerate() {
            writeln!(f, "{:<32}{:>10} {:>22}", format!("{} {name}", number + 1), count.images, count.all)?;
        }
        for (title, names, counts) in [("role", ROLES, self.roles), ("binding", BINDINGS, self.bindings)] {
            writeln!(f, "\n{title:<32}{:>10}", "records")?;
            names.iter().zip(counts).try_for_each(|(name, count)| writeln!(f, "{name:<32}{count:>10}"))?;
        }
        Ok(())
    }
}

/// The calls made, by call and the refusal they had to answer.
pub fn calls_made(comparer: &Comparer) -> String {
    let mut text = format!("{:<32}{:>10}{:>12}{:>12}\n", "calls by refusal", "roles", "bindings", "check");
    for refusal in 0..=LAST_REFUSAL {
        let [roles, bindings, check] = comparer.made.map(|made| made[refusal]);
        let name = if refusal == 0 { "accepted".to_string() } else { refusal.to_string() };
        text += &format!("{name:<32}{roles:>10}{bindings:>12}{check:>12}\n");
    }
    let all: u64 = comparer.made.iter().flatten().sum();
    text + &format!("{:<32}{all:>10}\n", "all calls")
}
