//! The operands that an executable word names, and what inside means for them.
use super::fields::Fields;
use super::prototype::Prototype;
use crate::word::op;

/// A named operand, with its number.
#[derive(Debug, Clone, Copy, PartialEq, Eq)]
pub enum Operand {
    Register(u32),
    Constant(u32),
    Upvalue(u32),
    Child(u32),
}

impl Operand {
    /// "Registers below stack, constants below constants, upvalues below upvalues, a child that exists."
    pub fn is_inside(self, prototype: &Prototype) -> bool {
        match self {
            Operand::Register(number) => number < prototype.stack,
            Operand::Constant(number) => number < prototype.constants,
            Operand::Upvalue(number) => number < prototype.upvalues,
            Operand::Child(number) => (number as usize) < prototype.children.len(),
        }
    }
}

/// "A is a register except in JMP, EQ, LT, LE."
fn a_operand(fields: Fields) -> Option<Operand> {
    match fields.opcode {
        op::JMP | op::EQ..=op::LE => None,
        _ => Some(Operand::Register(fields.a)),
    }
}

/// An RK operand: "B or C of 256 or more names constant B - 256 or C - 256".
fn rk(number: u32) -> Operand {
    number.checked_sub(256).map_or(Operand::Register(number), Operand::Constant)
}

/// "B register: MOVE, LOADNIL, GETTABLE, SELF, UNM, NOT, LEN, CONCAT, TESTSET."; "B RK: SETTABLE, ADD to POW, EQ, LT, LE.";
/// and the upvalue B of GETUPVAL and SETUPVAL.
fn b_operand(fields: Fields) -> Option<Operand> {
    match fields.opcode {
        op::MOVE | op::LOADNIL | op::GETTABLE | op::SELF | op::UNM..=op::CONCAT | op::TESTSET => {
            Some(Operand::Register(fields.b))
        }
        op::SETTABLE | op::ADD..=op::POW | op::EQ..=op::LE => Some(rk(fields.b)),
        op::GETUPVAL | op::SETUPVAL => Some(Operand::Upvalue(fields.b)),
        _ => None,
    }
}

/// "C register: CONCAT."; "C RK: these, GETTABLE and SELF."
fn c_operand(fields: Fields) -> Option<Operand> {
    match fields.opcode {
        op::CONCAT => Some(Operand::Register(fields.c)),
        op::SETTABLE | op::ADD..=op::POW | op::EQ..=op::LE | op::GETTABLE | op::SELF => Some(rk(fields.c)),
        _ => None,
    }
}

/// The constant Bx of LOADK, GETGLOBAL and SETGLOBAL, and the child Bx of CLOSURE.
fn bx_operand(fields: Fields) -> Option<Operand> {
    match fields.opcode {
        op::LOADK | op::GETGLOBAL | op::SETGLOBAL => Some(Operand::Constant(fields.bx)),
        op::CLOSURE => Some(Operand::Child(fields.bx)),
        _ => None,
    }
}

/// The last registers of a word's spans: "SELF A+1; FORPREP, FORLOOP A+3; TFORLOOP A+2+C; CALL A+B-1 if B > 0, then A+C-2 if
/// C > 1; TAILCALL A+B-1 if B > 0; RETURN, VARARG A+B-2 if B > 1; SETLIST A+B if B > 0."
fn last_registers(fields: Fields) -> [Option<Operand>; 2] {
    let Fields { opcode, a, b, c, .. } = fields;
    let some = |last: u32| Some(Operand::Register(last));
    match opcode {
        op::SELF => [some(a + 1), None],
        op::FORPREP | op::FORLOOP => [some(a + 3), None],
        op::TFORLOOP => [some(a + 2 + c), None],
        op::CALL => {
            let arguments = if b > 0 { some(a + b - 1) } else { None };
            let results = if c > 1 { some(a + c - 2) } else { None };
            [arguments, results]
        }
        op::TAILCALL if b > 0 => [some(a + b - 1), None],
        op::RETURN | op::VARARG if b > 1 => [some(a + b - 2), None],
        op::SETLIST if b > 0 => [some(a + b), None],
        _ => [None, None],
    }
}

/// The B of a CLOSURE's companion: "a register under MOVE, an upvalue under GETUPVAL"; another opcode names nothing.
fn companion_operand(fields: Fields) -> Option<Operand> {
    match fields.opcode {
        op::MOVE => Some(Operand::Register(fields.b)),
        op::GETUPVAL => Some(Operand::Upvalue(fields.b)),
        _ => None,
    }
}

/// The operands of the existing companions, if the word at a pc is a CLOSURE with its child.
fn companion_operands(prototype: &Prototype, pc: usize) -> impl Iterator<Item = Operand> + '_ {
    let fields = prototype.fields(pc);
    let owned = if fields.opcode == op::CLOSURE { prototype.owned(fields) } else { 0 };
    prototype.words[pc + 1..].iter().take(owned).filter_map(|word| companion_operand(Fields::of(*word)))
}

/// The operands that the executable word at a pc names; a word of unknown opcode names nothing.
pub fn named(prototype: &Prototype, pc: usize) -> Vec<Operand> {
    let fields = prototype.fields(pc);
    if !fields.is_known() {
        return Vec::new();
    }
    let [last, second_last] = last_registers(fields);
    let own = [a_operand(fields), last, second_last, b_operand(fields), c_operand(fields), bx_operand(fields)];
    own.into_iter().flatten().chain(companion_operands(prototype, pc)).collect()
}
