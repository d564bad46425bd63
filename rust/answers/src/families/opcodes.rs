//! Every opcode with its operands at the boundaries: one word alone, and all combinations of B and C, 33 an image.
use crate::image::{image, Source};
use crate::list::List;
use crate::word::{abc, abx, asbx, op, RETURN};

const CONSTANTS: u32 = 3;
const UPVALUES: u32 = 2;
const STACK: u32 = 5;

/// A around 0 and the stack.
const A: [u32; 5] = [0, 1, STACK - 1, STACK, 255];
/// B and C around 0, the upvalues, the stack, and the constants of an RK operand.
const BC: [u32; 12] =
    [0, 1, 2, 3, STACK - 1, STACK, STACK + 1, STACK + 2, 256, 256 + CONSTANTS - 1, 256 + CONSTANTS, 511];
/// B and C where the check does not look at them.
const FREE: [u32; 3] = [0, 256, 511];
/// The opcodes whose C the check looks at.
const USES_C: [u32; 17] = [
    op::LOADBOOL,
    op::GETTABLE,
    op::SETTABLE,
    op::SELF,
    op::ADD,
    op::ADD + 1,
    op::ADD + 2,
    op::ADD + 3,
    op::ADD + 4,
    op::POW,
    op::CONCAT,
    op::EQ,
    op::LT,
    op::LE,
    op::CALL,
    op::TFORLOOP,
    op::SETLIST,
];
/// Bx around 0, the constants, and both ends.
const BX: [u32; 7] = [0, 1, CONSTANTS - 1, CONSTANTS, 131_071, 262_142, 262_143];
/// sBx from the only word to itself and around, and both ends.
const SBX: [i32; 6] = [-1, -2, 0, 1, -131_071, 131_072];
/// B and C in the packed images.
const PACKED: [u32; 7] = [0, 1, STACK - 1, STACK, 255, 256 + CONSTANTS - 1, 256 + CONSTANTS];

fn main_with(code: &[u32]) -> Source {
    Source::main(CONSTANTS, UPVALUES, STACK, code)
}

/// The words of one opcode, each with one operand away from a harmless choice.
fn single_words(opcode: u32) -> Vec<u32> {
    match opcode {
        op::JMP | op::FORLOOP | op::FORPREP => {
            let targets = SBX.map(|sbx| asbx(opcode, 0, sbx));
            A.map(|a| asbx(opcode, a, -1)).into_iter().chain(targets).collect()
        }
        op::LOADK | op::GETGLOBAL | op::SETGLOBAL | op::CLOSURE => {
            let indexes = BX.map(|bx| abx(opcode, 0, bx));
            A.map(|a| abx(opcode, a, 0)).into_iter().chain(indexes).collect()
        }
        38.. => vec![abc(opcode, 0, 0, 0), abc(opcode, 255, 511, 511)],
        _ => {
            let free_b = [op::LOADBOOL, op::NEWTABLE, op::TEST, op::TFORLOOP, op::CLOSE].contains(&opcode);
            let values = |free: bool| if free { &FREE[..] } else { &BC[..] };
            let b = values(free_b).iter().map(|b| abc(opcode, 0, *b, 1));
            let c = values(!USES_C.contains(&opcode)).iter().map(|c| abc(opcode, 0, 1, *c));
            A.map(|a| abc(opcode, a, 1, 1)).into_iter().chain(b).chain(c).collect()
        }
    }
}

fn add_singles(list: &mut List, opcode: u32) {
    let mut words = single_words(opcode);
    words.sort_unstable();
    words.dedup();
    for word in words {
        let mut sources = vec![main_with(&[word])];
        if opcode == op::CLOSURE {
            sources.push(Source::main(0, 0, 2, &[RETURN]).at(1));
        }
        list.add("opcode", image(&sources));
    }
}

/// All combinations of B and C at A = 0 and at the last register, 33 words an image.
fn add_packed(list: &mut List, opcode: u32) {
    let mut words = Vec::new();
    for a in [0, STACK - 1] {
        for b in PACKED {
            words.extend(PACKED.map(|c| abc(opcode, a, b, c)));
        }
    }
    for code in words.chunks(33) {
        list.add("operands", image(&[main_with(code)]));
    }
}

pub fn add(list: &mut List) {
    for opcode in 0..64 {
        add_singles(list, opcode);
    }
    for opcode in 0..38 {
        let fields = [op::LOADK, op::GETGLOBAL, op::SETGLOBAL, op::CLOSURE, op::JMP, op::FORLOOP, op::FORPREP];
        if !fields.contains(&opcode) {
            add_packed(list, opcode);
        }
    }
}
