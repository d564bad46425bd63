//! The steps of an execution, and how it stands at its end.
use super::prototype::Prototype;
use crate::word::op;

/// "One way or the other": where document 01 gives two ways for a word, on to the next word, or the way off that line: the
/// target of FORLOOP, place + 2 of a skip, the end at TAILCALL.
#[derive(Debug, Clone, Copy, PartialEq, Eq, Hash)]
pub enum Choice {
    On,
    Off,
}

/// How an execution stands at its end.
#[derive(Debug, Clone, Copy, PartialEq, Eq)]
pub enum End {
    /// The RETURN at this pc ends it.
    Return(usize),
    /// The TAILCALL at this pc ends it.
    TailCall(usize),
    /// It comes to this pc, where there is no word.
    Left(i64),
    /// The choices give out at this pc.
    GaveOut(usize),
}

/// An execution: the pcs of the words that it meets, in order, and how it stands at its end.
#[derive(Debug, Clone, PartialEq, Eq)]
pub struct Execution {
    pub met: Vec<usize>,
    pub end: End,
}

/// Where a word leads: to a pc, at which there may be no word, or to the end of the execution. "An owner past its
/// companions", and these are "those of the next words that exist". A word of unknown opcode goes on; a companion goes by
/// its bits, but owns nothing.
fn next(prototype: &Prototype, is_companion: bool, pc: usize, choice: Choice) -> Result<i64, End> {
    let fields = prototype.fields(pc);
    let after = pc as i64 + 1;
    let target = after + fields.sbx;
    let off = choice == Choice::Off;
    let companions = if is_companion { 0 } else { prototype.owned(fields).min(prototype.words.len() - 1 - pc) };
    match fields.opcode {
        op::JMP | op::FORPREP => Ok(target),
        op::FORLOOP => Ok(if off { target } else { after }),
        op::EQ..=op::LE | op::TEST | op::TESTSET | op::TFORLOOP => Ok(if off { after + 1 } else { after }),
        op::LOADBOOL if fields.c != 0 => Ok(after + 1),
        op::RETURN => Err(End::Return(pc)),
        op::TAILCALL if off => Err(End::TailCall(pc)),
        _ => Ok(after + companions as i64),
    }
}

/// The execution of a prototype that is fed these choices; "an empty part has no run".
pub fn execute(prototype: &Prototype, choices: &[Choice]) -> Option<Execution> {
    let companions = prototype.companions();
    let mut pc = prototype.with_word(0)?;
    let mut met = vec![pc];
    for choice in choices {
        let to = match next(prototype, companions[pc], pc, *choice) {
            Ok(to) => to,
            Err(end) => return Some(Execution { met, end }),
        };
        let Some(here) = prototype.with_word(to) else {
            return Some(Execution { met, end: End::Left(to) });
        };
        pc = here;
        met.push(pc);
    }
    Some(Execution { met, end: End::GaveOut(pc) })
}
