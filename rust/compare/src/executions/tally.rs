//! Counts over the executions of valid images.
use super::images::KINDS;
use answers::execution::{Choice, End, Execution, Prototype};
use answers::image::{Image, ROW_BYTES};
use answers::word::op;
use luad::opcodes::Opcode51;
use std::collections::BTreeMap;
use std::fmt;

/// Images of a kind, those of them that are valid, and the prototypes and executions of these.
#[derive(Clone, Copy, Default)]
struct Count {
    images: u64,
    valid: u64,
    prototypes: u64,
    runs: u64,
}

/// How executions stand at their ends; a valid image lets none leave otherwise.
const ENDS: [&str; 5] =
    ["ended by RETURN", "ended by TAILCALL", "left past the last word", "the choices gave out", "no words, so no run"];

/// The known opcodes.
const OPCODES: u32 = 38;

/// A run with more steps is a long one.
const LONG: usize = 100;

#[derive(Default)]
pub struct Tally {
    /// By kind; the last is that of compiled scripts.
    kinds: [Count; KINDS.len() + 1],
    ends: [u64; ENDS.len()],
    /// Steps by opcode: those that are to go on, and those that are to go off.
    steps: BTreeMap<u32, [u64; 2]>,
    /// Runs that are long.
    long: u64,
    /// Words of the prototypes, and those of them that some execution meets.
    words: u64,
    met: u64,
    /// Rows and words of the valid images, each of which is to be among the prototypes'.
    of_images: [u64; 2],
    pub runs: u64,
    pub violating: u64,
}

/// The kind of compiled scripts.
pub const SCRIPTS: usize = KINDS.len();

impl Tally {
    pub fn add_image(&mut self, kind: usize, image: &Image, is_valid: bool) {
        self.kinds[kind].images += 1;
        if is_valid {
            self.kinds[kind].valid += 1;
            let [rows, words] = &mut self.of_images;
            *rows += (image.table.len() / ROW_BYTES) as u64;
            *words += (image.words.len() / 4) as u64;
        }
    }

    pub fn images(&self) -> u64 {
        self.kinds.iter().map(|count| count.images).sum()
    }

    fn valid(&self) -> u64 {
        self.kinds.iter().map(|count| count.valid).sum()
    }

    /// Adds a prototype, of whose words these are met.
    pub fn add_prototype(&mut self, kind: usize, met: &[bool]) {
        self.kinds[kind].prototypes += 1;
        self.words += met.len() as u64;
        self.met += met.iter().filter(|met| **met).count() as u64;
    }

    pub fn add_run(&mut self, kind: usize, prototype: &Prototype, choices: &[Choice], execution: Option<&Execution>) {
        self.runs += 1;
        self.kinds[kind].runs += 1;
        let end = match execution.map(|execution| execution.end) {
            Some(End::Return(_)) => 0,
            Some(End::TailCall(_)) => 1,
            Some(End::Left(_)) => 2,
            Some(End::GaveOut(_)) => 3,
            None => 4,
        };
        self.ends[end] += 1;
        let met = execution.map_or(&[][..], |execution| &execution.met);
        self.long += u64::from(met.len().min(choices.len()) > LONG);
        for (pc, choice) in met.iter().zip(choices) {
            let steps = self.steps.entry(prototype.fields(*pc).opcode).or_default();
            steps[usize::from(*choice == Choice::Off)] += 1;
        }
    }

    /// What must occur and does not: valid images of each kind, ends, known opcodes, each with both choices, long runs, and
    /// runs of every prototype.
    pub fn missing(&self) -> Vec<String> {
        let mut missing = Vec::new();
        let mut need = |count: u64, name: String| {
            if count == 0 {
                missing.push(name)
            }
        };
        names().zip(self.kinds).for_each(|(name, count)| need(count.valid, format!("a valid image of {name}")));
        ENDS.iter().zip(self.ends).for_each(|(name, count)| need(count, format!("a run that {name}")));
        for opcode in 0..OPCODES {
            let [on, off] = self.steps.get(&opcode).copied().unwrap_or_default();
            need(on.min(off), format!("{} with both choices", name(opcode)));
        }
        need(self.long, format!("a run of more than {LONG} steps"));
        let prototypes = self.kinds.iter().map(|count| count.prototypes).sum();
        need(
            u64::from([prototypes, self.words] == self.of_images),
            "runs of every prototype, with all its words".into(),
        );
        missing
    }
}

/// The names of the kinds.
fn names() -> impl Iterator<Item = &'static str> {
    KINDS.iter().map(|(name, _)| *name).chain(["compiled scripts"])
}

/// The name of a known opcode.
fn name(opcode: u32) -> &'static str {
    Opcode51::from_u8(opcode as u8).map_or("-", Opcode51::name)
}

/// Whether document 01 gives two ways for a word of this opcode.
fn has_two_ways(opcode: u32) -> bool {
    matches!(opcode, op::FORLOOP | op::TAILCALL | op::EQ..=op::LE | op::TEST | op::TESTSET | op::TFORLOOP)
}

impl fmt::Display for Tally {
    fn fmt(&self, f: &mut fmt::Formatter) -> fmt::Result {
        writeln!(f, "{:<32}{:>10}{:>10}{:>12}{:>12}", "images", "all", "valid", "prototypes", "runs")?;
        for (name, Count { images, valid, prototypes, runs }) in names().zip(self.kinds) {
            writeln!(f, "{name:<32}{images:>10}{valid:>10}{prototypes:>12}{runs:>12}")?;
        }
        writeln!(f, "\n{:<32}{:>10}", "end", "runs")?;
        ENDS.iter().zip(self.ends).try_for_each(|(name, count)| writeln!(f, "{name:<32}{count:>10}"))?;
        writeln!(f, "\n{:<32}{:>10}{:>12}", "steps", "on", "off")?;
        let mut others = 0;
        for (opcode, [on, off]) in &self.steps {
            if has_two_ways(*opcode) {
                writeln!(f, "{:<32}{on:>10}{off:>12}", name(*opcode))?;
            } else {
                others += on + off;
            }
        }
        writeln!(f, "{:<32}{others:>10}\n", "one way")?;
        writeln!(f, "{} runs of more than {LONG} steps", self.long)?;
        writeln!(f, "{} words, of which {} are met", self.words, self.met)?;
        let Tally { runs, violating, .. } = self;
        write!(f, "{} images, {} of them valid; {runs} runs, {violating} violate", self.images(), self.valid())
    }
}
