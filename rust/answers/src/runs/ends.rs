//! Ends: RETURN and TAILCALL, no words at all, choices that give out at every step, and choices that are left over.
use super::list::List;
use super::with_words;
use crate::execution::Prototype;
use crate::word::{abc, op, RETURN};

/// RETURN and TAILCALL with all kinds of operands, in the middle and last.
fn add_exits(list: &mut List) {
    for opcode in [op::RETURN, op::TAILCALL] {
        for [a, b, c] in [[0, 0, 0], [1, 1, 0], [0, 2, 1], [7, 1, 2], [0, 9, 0], [255, 511, 511]] {
            let word = abc(opcode, a, b, c);
            list.add_each("exit", &with_words(&[0, word, 0, RETURN]), &["00", "01", "000000", "111111"]);
            list.add_each("exit", &with_words(&[word]), &["", "0", "1", "01"]);
        }
    }
    let calls = [abc(op::TAILCALL, 0, 1, 0); 6];
    list.add_each("exit", &with_words(&calls), &["0001", "00001", "000000", "0000000", "1000", "00000"]);
}

/// A prototype without words, with and without children, under lists of all lengths.
fn add_empty(list: &mut List) {
    for children in [&[][..], &[0], &[2, 1]] {
        for [constants, upvalues, stack] in [[0, 0, 0], [3, 2, 8], [2_147_483_647, 255, 255]] {
            let prototype = Prototype { constants, upvalues, stack, children: children.to_vec(), words: Vec::new() };
            list.add_each("empty", &prototype, &["", "0", "1"]);
            list.add_each("empty", &prototype, &["0101010101010101010101010101010101010101"]);
        }
    }
}

/// Straight codes of several lengths, under lists of choices of every length up to three more than there are words.
fn add_lengths(list: &mut List) {
    for words in [1, 2, 5, 12] {
        for len in 0..=words + 3 {
            let code = vec![0; words];
            list.add_each("length", &with_words(&code), &[&"01010101010101010"[..len]]);
            list.add_each("length", &with_words(&[&code[1..], &[RETURN]].concat()), &[&"11011011011011011"[..len]]);
        }
    }
}

pub fn add(list: &mut List) {
    add_exits(list);
    add_empty(list);
    add_lengths(list);
}
