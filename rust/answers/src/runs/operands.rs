//! Operands about the figures: words in a row, each of which names what is just inside, or just not.
use super::list::List;
use crate::execution::{Choice, Prototype};
use crate::word::{abc, abx, asbx, bind_register, bind_upvalue, closure, op};

const CONSTANTS: u32 = 2;
const UPVALUES: u32 = 1;
const STACK: u32 = 5;
/// Words in one prototype at most.
const MOST_WORDS: usize = 12;

/// Values of B and C about the figures and about 256, where an RK operand begins to name constants.
const BC: [u32; 12] = [0, 1, 2, STACK - 1, STACK, STACK + 1, 255, 256, 257, 258, 261, 511];

/// The words of an opcode with one operand after another about the figures.
fn words(opcode: u32) -> Vec<u32> {
    let a = [0, 1, 2, 3, STACK - 1, STACK, 255].into_iter();
    match opcode {
        op::JMP | op::FORPREP | op::FORLOOP => a.map(|a| asbx(opcode, a, 0)).collect(),
        op::LOADK | op::GETGLOBAL | op::SETGLOBAL | op::CLOSURE => {
            let bx = [0, 1, CONSTANTS, CONSTANTS + 1, 256, 257, 131_072, 262_143].map(|bx| abx(opcode, 0, bx));
            a.map(|a| abx(opcode, a, 0)).chain(bx).collect()
        }
        _ => {
            let b = BC.into_iter().map(|b| abc(opcode, 0, b, 1));
            let c = BC.into_iter().map(|c| abc(opcode, 1, 0, c));
            a.map(|a| abc(opcode, a, 1, 1)).chain(b).chain(c).collect()
        }
    }
}

/// A prototype of these words, whose children have no upvalues.
fn prototype(words: &[u32]) -> Prototype {
    Prototype { constants: CONSTANTS, upvalues: UPVALUES, stack: STACK, children: vec![0, 0, 0], words: words.to_vec() }
}

/// Codes that go from word to word: a word that skips or ends has a prototype alone, the others fill prototypes together.
fn add_words(list: &mut List, opcode: u32) {
    let words = words(opcode);
    let alone = matches!(opcode, op::RETURN | op::LOADBOOL) || opcode == op::SETLIST;
    for code in words.chunks(if alone { 1 } else { MOST_WORDS }) {
        list.add("operand", &prototype(code), vec![Choice::On; code.len() + 1]);
    }
}

/// The B of a CLOSURE's companions, under MOVE, under GETUPVAL, and under opcodes that bind nothing.
fn add_companions(list: &mut List) {
    for b in [0, 1, STACK - 1, STACK, 255, 256, 300, 511] {
        let others = [abc(op::SETUPVAL, 0, b, 0), abc(op::LOADNIL, 0, b, 0), 63 | b << 23];
        for companion in [bind_register(b), bind_upvalue(b)].into_iter().chain(others) {
            for count in 1..4 {
                let code = [&vec![closure(0, 3)][..], &vec![bind_register(0); count - 1], &[companion, 0]].concat();
                let prototype = Prototype { children: vec![0, 0, 0, count as u32], ..prototype(&code) };
                list.add("operand", &prototype, vec![Choice::On; 4]);
            }
        }
        // truncated, with the companion that exists not inside
        let prototype =
            Prototype { children: vec![4], ..prototype(&[closure(0, 0), bind_register(b), bind_upvalue(0)]) };
        list.add("operand", &prototype, vec![Choice::On; 4]);
    }
}

/// Figures of nothing, and the largest, under words of every kind.
fn add_extremes(list: &mut List) {
    for [constants, upvalues, stack] in [[0, 0, 0], [1, 1, 1], [256, 255, 255], [2_147_483_647, 255, 251]] {
        for opcode in (0..38).filter(|opcode| *opcode != op::RETURN && *opcode != op::TAILCALL) {
            let word = |a: u32, b: u32, c: u32| match opcode {
                op::JMP | op::FORPREP | op::FORLOOP => asbx(opcode, a, 0),
                op::LOADBOOL | op::SETLIST => abc(opcode, a, b, 2 * (c % 2)),
                _ => abc(opcode, a, b, c),
            };
            let code = [word(0, 0, 0), word(stack.min(255), 1, 2), word(0, 255, 256), word(0, 511, 255)];
            let prototype = Prototype { constants, upvalues, stack, children: vec![1, 0], words: code.to_vec() };
            list.add("extreme", &prototype, vec![Choice::On; 5]);
        }
    }
}

pub fn add(list: &mut List) {
    for opcode in 0..38 {
        add_words(list, opcode);
    }
    add_companions(list);
    add_extremes(list);
}
