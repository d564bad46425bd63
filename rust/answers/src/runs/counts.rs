//! Counts over a list of runs: the kinds of words that are met, with both choices, and how the runs stand at their ends.
use super::random::MOST_WORDS;
use super::text::companions_and_outside;
use super::Run;
use crate::execution::{execute, may_end, Choice, End, Execution, Prototype};
use crate::word::op;
use std::collections::BTreeMap;
use std::fmt;

/// The first pc that counts as late: the prototypes of most families are shorter.
pub const LATE: usize = MOST_WORDS as usize;

/// The kinds of words that steps are taken from.
pub const KINDS: [&str; 30] = [
    "JMP",
    "FORPREP",
    "FORLOOP",
    "EQ",
    "LT",
    "LE",
    "TEST",
    "TESTSET",
    "TFORLOOP",
    "LOADBOOL with C = 0",
    "LOADBOOL with C = 1",
    "LOADBOOL with C = 256",
    "LOADBOOL with another C",
    "CLOSURE with its child",
    "CLOSURE with its child, truncated",
    "CLOSURE without its child",
    "SETLIST with C = 0",
    "SETLIST with C = 0, truncated",
    "SETLIST with C not 0",
    "RETURN",
    "TAILCALL",
    "an ordinary word",
    "an unknown opcode",
    "a companion that looks like a jump",
    "a companion that looks like a skip",
    "a companion that looks like CLOSURE with its child",
    "a companion that looks like SETLIST with C = 0",
    "a companion that looks like RETURN or TAILCALL",
    "a companion of unknown opcode",
    "another companion",
];

/// The ways in which runs stand at their ends.
pub const ENDS: [&str; 8] = [
    "no words, so no run",
    "ended by RETURN",
    "ended by TAILCALL",
    "left to -1",
    "left further before the first word",
    "left to the word count",
    "left further on",
    "the choices gave out",
];

/// What runs have besides.
pub const OTHERS: [&str; 7] = [
    "no choices",
    "40 choices",
    "choices left over",
    "a word met more than once",
    "a companion met",
    "an operand met that is not inside",
    "nothing of all this forbidden",
];

/// The kind of the companion at a pc.
fn companion_kind(prototype: &Prototype, pc: usize) -> &'static str {
    let fields = prototype.fields(pc);
    match fields.opcode {
        op::JMP | op::FORLOOP | op::FORPREP => "a companion that looks like a jump",
        op::EQ..=op::LE | op::TEST | op::TESTSET | op::TFORLOOP => "a companion that looks like a skip",
        op::LOADBOOL if fields.c != 0 => "a companion that looks like a skip",
        op::CLOSURE if prototype.owned(fields) > 0 => "a companion that looks like CLOSURE with its child",
        op::SETLIST if fields.c == 0 => "a companion that looks like SETLIST with C = 0",
        op::RETURN | op::TAILCALL => "a companion that looks like RETURN or TAILCALL",
        _ if !fields.is_known() => "a companion of unknown opcode",
        _ => "another companion",
    }
}

/// The kind of the owner, LOADBOOL or other word at a pc that has more than its opcode to tell it by.
fn further_kind(prototype: &Prototype, pc: usize) -> &'static str {
    let fields = prototype.fields(pc);
    let truncated = pc + prototype.owned(fields) >= prototype.words.len();
    let has_child = (fields.bx as usize) < prototype.children.len();
    match (fields.opcode, fields.c) {
        (op::LOADBOOL, 0) => "LOADBOOL with C = 0",
        (op::LOADBOOL, 1) => "LOADBOOL with C = 1",
        (op::LOADBOOL, 256) => "LOADBOOL with C = 256",
        (op::LOADBOOL, _) => "LOADBOOL with another C",
        (op::CLOSURE, _) if !has_child => "CLOSURE without its child",
        (op::CLOSURE, _) if truncated => "CLOSURE with its child, truncated",
        (op::CLOSURE, _) => "CLOSURE with its child",
        (op::SETLIST, 0) if truncated => "SETLIST with C = 0, truncated",
        (op::SETLIST, 0) => "SETLIST with C = 0",
        (op::SETLIST, _) => "SETLIST with C not 0",
        _ if fields.is_known() => "an ordinary word",
        _ => "an unknown opcode",
    }
}

/// The kind of the word at a pc.
fn kind(prototype: &Prototype, is_companion: bool, pc: usize) -> &'static str {
    match prototype.fields(pc).opcode {
        _ if is_companion => companion_kind(prototype, pc),
        op::JMP => "JMP",
        op::FORPREP => "FORPREP",
        op::FORLOOP => "FORLOOP",
        op::EQ => "EQ",
        op::LT => "LT",
        op::LE => "LE",
        op::TEST => "TEST",
        op::TESTSET => "TESTSET",
        op::TFORLOOP => "TFORLOOP",
        op::RETURN => "RETURN",
        op::TAILCALL => "TAILCALL",
        _ => further_kind(prototype, pc),
    }
}

/// The way in which an execution stands at its end.
fn end_kind(prototype: &Prototype, execution: Option<&Execution>) -> &'static str {
    let count = prototype.words.len() as i64;
    match execution.map(|execution| execution.end) {
        None => "no words, so no run",
        Some(End::Return(_)) => "ended by RETURN",
        Some(End::TailCall(_)) => "ended by TAILCALL",
        Some(End::Left(-1)) => "left to -1",
        Some(End::Left(pc)) if pc < 0 => "left further before the first word",
        Some(End::Left(pc)) if pc == count => "left to the word count",
        Some(End::Left(_)) => "left further on",
        Some(End::GaveOut(_)) => "the choices gave out",
    }
}

/// The counts.
#[derive(Default)]
pub struct Counts {
    pub runs: usize,
    families: Vec<(String, usize)>,
    /// Steps by kind of word: those that are to go on, and those that are to go off; of these, those from late pcs.
    pub steps: BTreeMap<&'static str, [usize; 2]>,
    pub late: BTreeMap<&'static str, [usize; 2]>,
    pub ends: BTreeMap<&'static str, usize>,
    pub others: BTreeMap<&'static str, usize>,
    /// Runs by the number of choices, and by the number of words.
    pub choices: BTreeMap<usize, usize>,
    pub words: BTreeMap<usize, usize>,
}

/// The number of steps that an execution takes: none is taken where the choices give out.
fn steps(execution: &Execution) -> usize {
    match execution.end {
        End::GaveOut(_) => execution.met.len() - 1,
        _ => execution.met.len(),
    }
}

impl Counts {
    fn add_family(&mut self, label: &str) {
        let (family, _) = label.rsplit_once('-').expect("a family and a number");
        match self.families.last_mut() {
            Some((name, count)) if name == family => *count += 1,
            _ => self.families.push((family.to_string(), 1)),
        }
    }

    /// Adds the steps of an execution.
    fn add_steps(&mut self, run: &Run, execution: &Execution) {
        let companions = run.prototype.companions();
        for (pc, choice) in execution.met.iter().zip(&run.choices) {
            let kind = kind(&run.prototype, companions[*pc], *pc);
            let off = usize::from(*choice == Choice::Off);
            self.steps.entry(kind).or_default()[off] += 1;
            self.late.entry(kind).or_default()[off] += usize::from(*pc >= LATE);
        }
    }

    /// Adds what a run has besides.
    fn add_others(&mut self, run: &Run, execution: &Execution) {
        let prototype = &run.prototype;
        let [companion, outside] = companions_and_outside(prototype, Some(execution)).map(|pcs| !pcs.is_empty());
        let mut met = execution.met.clone();
        met.sort_unstable();
        met.dedup();
        let unknown = met.iter().any(|pc| !prototype.fields(*pc).is_known());
        let has = [
            run.choices.is_empty(),
            run.choices.len() == 40,
            run.choices.len() > steps(execution),
            met.len() < execution.met.len(),
            companion,
            outside,
            !companion && !outside && !unknown && may_end(prototype, execution.end),
        ];
        for (name, has) in OTHERS.iter().zip(has) {
            *self.others.entry(name).or_default() += usize::from(has);
        }
    }

    /// The steps from words of a kind, and of these the late ones.
    pub fn steps_from(&self, kind: &str) -> [[usize; 2]; 2] {
        [&self.steps, &self.late].map(|steps| steps.get(kind).copied().unwrap_or_default())
    }

    pub fn add(&mut self, run: &Run) {
        let execution = execute(&run.prototype, &run.choices);
        self.runs += 1;
        self.add_family(&run.label);
        *self.choices.entry(run.choices.len()).or_default() += 1;
        *self.words.entry(run.prototype.words.len()).or_default() += 1;
        *self.ends.entry(end_kind(&run.prototype, execution.as_ref())).or_default() += 1;
        if let Some(execution) = &execution {
            self.add_steps(run, execution);
            self.add_others(run, execution);
        }
    }
}

/// Numbers and how often they occur, on one line.
fn numbers(counts: &BTreeMap<usize, usize>) -> String {
    counts.iter().map(|(number, count)| format!(" {number}:{count}")).collect()
}

impl fmt::Display for Counts {
    fn fmt(&self, f: &mut fmt::Formatter) -> fmt::Result {
        writeln!(f, "runs {}", self.runs)?;
        for (family, count) in &self.families {
            writeln!(f, "family {family} {count}")?;
        }
        for kind in KINDS {
            let [[on, off], [late_on, late_off]] = self.steps_from(kind);
            writeln!(f, "steps from {kind}: {on} {off}, late: {late_on} {late_off}")?;
        }
        for name in ENDS {
            writeln!(f, "end, {name}: {}", self.ends.get(name).unwrap_or(&0))?;
        }
        for name in OTHERS {
            writeln!(f, "runs with {name}: {}", self.others.get(name).unwrap_or(&0))?;
        }
        writeln!(f, "runs by choices:{}\nruns by words:{}", numbers(&self.choices), numbers(&self.words))
    }
}
