//! Skips and jumps to executable words, to companions and past the end, in a few words.
use crate::image::{image, Source};
use crate::list::List;
use crate::word::{abc, abx, bind_register, closure, jump, op, setlist_long, RETURN};

/// All skip words, and LOADBOOL with C = 0, which does not skip.
fn skips() -> Vec<u32> {
    let mut words = vec![abc(op::LOADBOOL, 0, 0, 0)];
    words.extend([1, 2, 255, 256, 511].map(|c| abc(op::LOADBOOL, 0, 1, c)));
    words.extend([op::EQ, op::LT, op::LE].map(|opcode| abc(opcode, 1, 0, 1)));
    words.extend([abc(op::TEST, 0, 0, 1), abc(op::TESTSET, 0, 1, 1), abc(op::TFORLOOP, 0, 0, 1)]);
    words
}

/// Words of stack 4, with one child of one upvalue.
fn with_child(code: &[u32]) -> Vec<Source> {
    vec![Source::main(2, 1, 4, code), Source::main(0, 1, 2, &[RETURN]).at(1)]
}

/// Short codes with companions and without; `None` is where the word under test stands.
fn layouts() -> Vec<Vec<Option<u32>>> {
    let test = None;
    let plain = Some(RETURN);
    let setlist = Some(setlist_long(0, 1));
    let extra = Some(0);
    let closure = Some(closure(1, 0));
    let missing = Some(abx(op::CLOSURE, 1, 1));
    let bind = Some(bind_register(0));
    vec![
        vec![test],
        vec![test, plain],
        vec![test, plain, plain],
        vec![test, setlist],
        vec![test, setlist, extra],
        vec![test, setlist, extra, plain],
        vec![test, plain, setlist, extra],
        vec![test, closure],
        vec![test, closure, bind],
        vec![test, missing, bind],
        vec![test, plain, closure, bind],
        vec![setlist, extra, test, plain],
        vec![closure, bind, test, closure, bind, plain],
        vec![setlist, test, plain],
        vec![closure, test, plain],
    ]
}

fn fill(layout: &[Option<u32>], test: u32) -> Vec<u32> {
    layout.iter().map(|word| word.unwrap_or(test)).collect()
}

fn add_skips(list: &mut List) {
    for layout in layouts() {
        for skip in skips() {
            list.add("skip", image(&with_child(&fill(&layout, skip))));
        }
    }
}

fn add_jumps(list: &mut List) {
    for layout in layouts() {
        let pc = layout.iter().position(Option::is_none).expect("a word under test");
        let count = layout.len() as i32;
        for (number, target) in (-2..count + 2).enumerate() {
            let opcode = [op::JMP, op::FORLOOP, op::FORPREP][number % 3];
            list.add("jump", image(&with_child(&fill(&layout, jump(opcode, 0, pc, target)))));
            if layout.len() < 5 {
                list.add("jump", image(&with_child(&fill(&layout, jump(op::JMP, 255, pc, target)))));
            }
        }
    }
}

/// Two skips over each other's companions, and chains of owners.
fn add_pairs(list: &mut List) {
    let words = [abc(op::EQ, 0, 0, 0), setlist_long(0, 1), closure(0, 0), jump(op::JMP, 0, 1, 2), RETURN];
    for first in words {
        for second in words {
            for third in [setlist_long(0, 1), closure(0, 0), RETURN] {
                list.add("pair", image(&with_child(&[first, second, third, bind_register(0)])));
            }
        }
    }
}

pub fn add(list: &mut List) {
    add_skips(list);
    add_jumps(list);
    add_pairs(list);
}
