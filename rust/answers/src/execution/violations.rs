//! What an execution does that no execution of a valid prototype may do.
use super::operands::{named, Operand};
use super::prototype::Prototype;
use super::steps::{End, Execution};
use std::fmt;

/// What an execution may not do.
#[derive(Debug, Clone, Copy, PartialEq, Eq)]
pub enum Violation {
    /// It meets the companion at this pc.
    Companion(usize),
    /// It meets the word of unknown opcode at this pc.
    UnknownOpcode(usize),
    /// It meets the word at this pc, which names an operand that is not inside.
    Outside(usize, Operand),
    /// It comes to this pc, where there is no word and which is not past the last word.
    Exit(i64),
}

impl fmt::Display for Violation {
    fn fmt(&self, f: &mut fmt::Formatter) -> fmt::Result {
        match self {
            Violation::Companion(pc) => write!(f, "meets the companion at pc {pc}"),
            Violation::UnknownOpcode(pc) => write!(f, "meets the unknown opcode at pc {pc}"),
            Violation::Outside(pc, operand) => write!(f, "meets the word at pc {pc}, whose {operand:?} is not inside"),
            Violation::Exit(pc) => write!(f, "leaves to pc {pc}"),
        }
    }
}

/// Whether an execution may stand so at its end. It may leave at a RETURN or a TAILCALL, and past the last word, which
/// "is any place not below the word count". Where the choices give out it has not left.
pub fn may_end(prototype: &Prototype, end: End) -> bool {
    match end {
        End::Return(_) | End::TailCall(_) | End::GaveOut(_) => true,
        End::Left(pc) => pc >= prototype.words.len() as i64,
    }
}

/// What is wrong with a word, if an execution meets it.
fn of_word(prototype: &Prototype, is_companion: bool, pc: usize) -> Vec<Violation> {
    if is_companion {
        return vec![Violation::Companion(pc)];
    }
    if !prototype.fields(pc).is_known() {
        return vec![Violation::UnknownOpcode(pc)];
    }
    let outside = named(prototype, pc).into_iter().filter(|operand| !operand.is_inside(prototype));
    outside.map(|operand| Violation::Outside(pc, operand)).collect()
}

/// All that an execution does and may not do, in the order in which it does it; what is wrong with a word stands once.
pub fn violations(prototype: &Prototype, execution: &Execution) -> Vec<Violation> {
    let companions = prototype.companions();
    let mut seen = vec![false; prototype.words.len()];
    let mut all = Vec::new();
    for pc in &execution.met {
        if !seen[*pc] {
            seen[*pc] = true;
            all.extend(of_word(prototype, companions[*pc], *pc));
        }
    }
    if let End::Left(pc) = execution.end {
        if !may_end(prototype, execution.end) {
            all.push(Violation::Exit(pc));
        }
    }
    all
}
