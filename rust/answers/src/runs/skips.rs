//! Skips at the first words and at the last ones, past the end, and LOADBOOL with every kind of C.
use super::list::List;
use super::with_words;
use crate::word::{abc, op, RETURN};

/// The words that skip or go on.
const SKIPS: [u32; 6] = [op::EQ, op::LT, op::LE, op::TEST, op::TESTSET, op::TFORLOOP];

/// Values of C of LOADBOOL: all but 0 skip, also those whose low byte is 0.
const C: [u32; 8] = [0, 1, 2, 128, 255, 256, 257, 511];

pub fn add(list: &mut List) {
    let skips = SKIPS.into_iter().flat_map(|opcode| [0, 1].map(|c| abc(opcode, 1, 0, c)));
    let booleans = C.into_iter().flat_map(|c| [0, 1].map(|b| abc(op::LOADBOOL, 1, b, c)));
    for word in skips.chain(booleans) {
        for pc in 0..4 {
            let mut code = [0, 0, 0, RETURN];
            code[pc] = word;
            list.add_each("skip", &with_words(&code), &["0000", "1111"]);
        }
        list.add_each("skip", &with_words(&[word; 7]), &["0110100", "1111111", "00"]);
    }
}
