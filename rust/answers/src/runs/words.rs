//! Every kind of word with both choices: first, alone, last, and met a second time.
use super::list::List;
use super::with_words;
use crate::word::{abc, asbx, bind_register, closure, op, setlist_long, RETURN};

const MOVE: u32 = 0;

/// A word of each opcode whose operands are inside, with jumps to the word after the next one.
fn word(opcode: u32) -> u32 {
    match opcode {
        op::JMP | op::FORPREP | op::FORLOOP => asbx(opcode, 0, 1),
        op::CLOSURE => closure(0, 1),
        _ => abc(opcode, 0, 1, 1),
    }
}

/// Words of the kinds that one opcode has more than one of.
const FURTHER: [u32; 9] = [
    op::LOADBOOL | 1 << 23,
    op::LOADBOOL | 256 << 14,
    op::LOADBOOL | 511 << 14,
    op::CLOSURE,
    op::CLOSURE | 2 << 14,
    op::CLOSURE | 3 << 14,
    op::SETLIST | 1 << 23,
    op::SETLIST | 256 << 14,
    op::RETURN,
];

/// Codes around a word: it stands first, alone, last, behind a companion, and where a loop meets it again and again.
fn codes(word: u32) -> [Vec<u32>; 5] {
    [
        vec![word, MOVE, bind_register(1), RETURN, MOVE],
        vec![word],
        vec![MOVE, word],
        vec![setlist_long(0, 1), word, word, MOVE, MOVE, RETURN],
        vec![word, MOVE, asbx(op::JMP, 0, -3), asbx(op::JMP, 0, -4)],
    ]
}

/// The unknown opcodes, of which the first and the last stand in every code.
fn add_unknown(list: &mut List) {
    for opcode in 39..63 {
        let [first, alone, ..] = codes(word(opcode));
        list.add_each("word", &with_words(&first), &["0", "11111"]);
        list.add_each("word", &with_words(&alone), &["1"]);
    }
}

/// A word of each kind.
pub fn kinds() -> impl Iterator<Item = u32> {
    (0..39).chain([63]).map(word).chain(FURTHER)
}

pub fn add(list: &mut List) {
    add_unknown(list);
    for word in kinds() {
        let [first, alone, last, behind, again] = codes(word);
        list.add_each("word", &with_words(&first), &["0", "1", "00000", "11111"]);
        list.add_each("word", &with_words(&alone), &["", "0", "1"]);
        list.add_each("word", &with_words(&last), &["000", "110"]);
        list.add_each("word", &with_words(&behind), &["0000", "1111"]);
        list.add_each("word", &with_words(&again), &["000000", "0101011", "11111111"]);
    }
}
