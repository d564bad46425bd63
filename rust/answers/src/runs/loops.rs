//! Loops, under lists of every length from 0 to 40.
use super::list::{choices, random_choices, List};
use super::with_words;
use crate::word::{abc, asbx, bind_register, closure, jump, op, setlist_long, RETURN};

/// The codes of loops as Lua compiles them, nested ones, and loops that are nothing else.
fn codes() -> Vec<Vec<u32>> {
    let test = abc(op::TEST, 0, 0, 0);
    vec![
        // numeric for
        vec![jump(op::FORPREP, 0, 0, 3), 0, setlist_long(0, 1), jump(op::FORLOOP, 0, 3, 1), RETURN],
        // while
        vec![test, asbx(op::JMP, 0, 2), 0, asbx(op::JMP, 0, -4), RETURN],
        // repeat, with a closure
        vec![closure(1, 0), bind_register(1), test, asbx(op::JMP, 0, -4), RETURN],
        // generic for
        vec![asbx(op::JMP, 0, 1), 0, abc(op::TFORLOOP, 0, 0, 2), asbx(op::JMP, 0, -3), RETURN],
        // nested numeric for
        vec![
            jump(op::FORPREP, 0, 0, 6),
            0,
            jump(op::FORPREP, 4, 2, 5),
            abc(op::LT, 1, 0, 1),
            asbx(op::JMP, 0, 0),
            jump(op::FORLOOP, 4, 5, 3),
            jump(op::FORLOOP, 0, 6, 1),
            RETURN,
        ],
        // one word, and two
        vec![asbx(op::JMP, 0, -1)],
        vec![asbx(op::FORLOOP, 0, -1), asbx(op::FORPREP, 0, -2)],
    ]
}

pub fn add(list: &mut List) {
    for code in codes() {
        let prototype = with_words(&code);
        for len in 0..=40 {
            let random = random_choices(&mut list.rng, len);
            list.add("loop", &prototype, random);
            if len % 8 == 0 {
                list.add("loop", &prototype, choices(&"0".repeat(len as usize)));
                list.add("loop", &prototype, choices(&"1".repeat(len as usize)));
            }
        }
    }
}
