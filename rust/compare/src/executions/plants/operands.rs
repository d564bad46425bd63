//! Operands that are not inside: every operand that document 01 names, of every opcode.
use super::{pick, Plant, Planted, Site};
use answers::execution::{Operand, Violation};
use answers::rng::Rng;
use answers::word::{bind_register, bind_upvalue, op};

/// A field of a word: its first bit and its largest value.
#[derive(Clone, Copy)]
struct Field {
    bit: u32,
    most: u32,
}

const A: Field = Field { bit: 6, most: 0xff };
const B: Field = Field { bit: 23, most: 0x1ff };
const C: Field = Field { bit: 14, most: 0x1ff };
const BX: Field = Field { bit: 14, most: 0x3_ffff };

impl Field {
    fn set(self, word: u32, value: u32) -> u32 {
        word & !(self.most << self.bit) | value << self.bit
    }
}

/// How a word names an operand.
#[derive(Clone, Copy)]
enum Named {
    Register(Field),
    RkRegister(Field),
    RkConstant(Field),
    Constant,
    Upvalue,
    Child,
    /// The last register of a span: A plus a count in the field, less this number.
    Counted(Field, i64),
    /// The last register of a span: this number after A.
    Fixed(i64),
}

/// The field to set: to the operand's number with something added, up to a largest value; the first number that is not
/// inside; and the operand.
type Setting = (Field, i64, i64, u32, fn(u32) -> Operand);

impl Named {
    fn setting(self, site: &Site) -> Setting {
        let (prototype, a) = (site.prototype, i64::from(site.prototype.fields(site.pc).a));
        let (stack, constants) = (prototype.stack, prototype.constants);
        match self {
            Named::Register(field) => (field, 0, field.most.into(), stack, Operand::Register),
            Named::RkRegister(field) => (field, 0, 255, stack, Operand::Register),
            Named::RkConstant(field) => (field, 256, 511, constants, Operand::Constant),
            Named::Constant => (BX, 0, BX.most.into(), constants, Operand::Constant),
            Named::Upvalue => (B, 0, 511, prototype.upvalues, Operand::Upvalue),
            Named::Child => (BX, 0, BX.most.into(), prototype.children.len() as u32, Operand::Child),
            Named::Counted(field, without) => (field, without - a, 511, stack, Operand::Register),
            // A itself stays inside
            Named::Fixed(after) => (A, -after, i64::from(stack) - 1, stack, Operand::Register),
        }
    }

    /// Sets the field so that the operand is not inside, half of the time the first one that is not.
    fn plant(self, rng: &mut Rng, site: &Site) -> Option<Planted> {
        let (field, added, most, limit, operand) = self.setting(site);
        let first = i64::from(limit).max(-added);
        let last = most - added;
        if first > last {
            return None;
        }
        let number = if rng.one_in(2) { first as u32 } else { rng.range(first as u32, last as u32) };
        let word = field.set(site.word(), (i64::from(number) + added) as u32);
        Some(Planted { pc: site.pc, word, noticed: Violation::Outside(site.pc, operand(number)) })
    }
}

/// A binding word of the CLOSURE, whose B is not inside.
fn companion(
    rng: &mut Rng,
    site: &Site,
    limit: u32,
    bind: fn(u32) -> u32,
    operand: fn(u32) -> Operand,
) -> Option<Planted> {
    let pc = pick(rng, &site.with_role(|role| role[0] == site.pc as i32))?;
    let b = if rng.one_in(2) { limit } else { rng.range(limit, 511) };
    Some(Planted { pc, word: bind(b), noticed: Violation::Outside(site.pc, operand(b)) })
}

/// The opcodes of a list and of a range.
fn with(opcodes: &[u32], first: u32, last: u32) -> Vec<u32> {
    opcodes.iter().copied().chain(first..=last).collect()
}

/// What is named, how, and by which opcodes.
fn table() -> Vec<(&'static str, Named, Vec<u32>)> {
    let a = (0..38).filter(|opcode| *opcode != op::JMP && !(op::EQ..=op::LE).contains(opcode)).collect();
    let b = with(&[op::MOVE, op::LOADNIL, op::GETTABLE, op::SELF, op::TESTSET], op::UNM, op::CONCAT);
    let rk = [with(&[op::SETTABLE], op::ADD, op::POW), with(&[], op::EQ, op::LE)].concat();
    let rk_c = [&rk[..], &[op::GETTABLE, op::SELF]].concat();
    vec![
        ("register A", Named::Register(A), a),
        ("register B", Named::Register(B), b),
        ("register C", Named::Register(C), vec![op::CONCAT]),
        ("RK B, register", Named::RkRegister(B), rk.clone()),
        ("RK B, constant", Named::RkConstant(B), rk),
        ("RK C, register", Named::RkRegister(C), rk_c.clone()),
        ("RK C, constant", Named::RkConstant(C), rk_c),
        ("constant Bx", Named::Constant, vec![op::LOADK, op::GETGLOBAL, op::SETGLOBAL]),
        ("upvalue B", Named::Upvalue, vec![op::GETUPVAL, op::SETUPVAL]),
        ("child Bx", Named::Child, vec![op::CLOSURE]),
        ("last register A+1", Named::Fixed(1), vec![op::SELF]),
        ("last register A+3", Named::Fixed(3), vec![op::FORPREP, op::FORLOOP]),
        ("last register A+2+C", Named::Counted(C, -2), vec![op::TFORLOOP]),
        ("last register A+B-1", Named::Counted(B, 1), vec![op::CALL, op::TAILCALL]),
        ("last register A+C-2", Named::Counted(C, 2), vec![op::CALL]),
        ("last register A+B-2", Named::Counted(B, 2), vec![op::RETURN, op::VARARG]),
        ("last register A+B", Named::Counted(B, 0), vec![op::SETLIST]),
    ]
}

pub fn plants() -> Vec<Plant> {
    let mut all = Vec::new();
    for (what, named, opcodes) in table() {
        let plant = |opcode| Plant::new(opcode, what, move |rng, site| named.plant(rng, site));
        all.extend(opcodes.into_iter().map(plant));
    }
    all.push(Plant::new(op::CLOSURE, "register B of a binding word", |rng, site| {
        companion(rng, site, site.prototype.stack, bind_register, Operand::Register)
    }));
    all.push(Plant::new(op::CLOSURE, "upvalue B of a binding word", |rng, site| {
        companion(rng, site, site.prototype.upvalues, bind_upvalue, Operand::Upvalue)
    }));
    all
}
