//! Jumps before, to and past both ends of a code, and onto companions of every look.
use super::list::List;
use super::with_words;
use crate::execution::Prototype;
use crate::word::{abc, asbx, bind_register, bind_upvalue, closure, jump, op, setlist_long, RETURN};

const JUMPS: [u32; 3] = [op::JMP, op::FORPREP, op::FORLOOP];

/// Each jump at each pc of three, to every target near, and as far as sBx reaches.
fn add_targets(list: &mut List) {
    for opcode in JUMPS {
        for pc in 0..3 {
            let near = (-3..=5).map(|target| jump(opcode, 0, pc, target));
            let far = [-131_071, -131_070, 131_071, 131_072].map(|sbx| asbx(opcode, 3, sbx));
            for word in near.chain(far) {
                let mut code = [0, 0, RETURN];
                code[pc] = word;
                list.add_each("jump", &with_words(&code), &["0000", "1111"]);
            }
        }
    }
}

/// Words that stand as companions and look like owners, jumps, skips, ends, other words, or none.
fn looks() -> Vec<u32> {
    vec![
        bind_register(7),
        bind_upvalue(1),
        closure(0, 2),
        closure(0, 9),
        setlist_long(0, 1),
        asbx(op::JMP, 0, 1),
        asbx(op::FORPREP, 0, -4),
        asbx(op::FORLOOP, 0, -2),
        abc(op::EQ, 0, 0, 0),
        abc(op::TFORLOOP, 0, 0, 1),
        abc(op::LOADBOOL, 0, 0, 1),
        abc(op::TAILCALL, 0, 1, 0),
        RETURN,
        63,
    ]
}

/// A jump or a skip to a companion of each look, behind a CLOSURE and behind a SETLIST, and a walk past it.
fn add_companions(list: &mut List) {
    for look in looks() {
        for owner in [closure(0, 2), setlist_long(0, 1)] {
            for opcode in JUMPS {
                let code = [jump(opcode, 0, 0, 2), owner, look, look, 0, RETURN];
                list.add_each("onto-companion", &with_words(&code), &["000000", "100100", "111111"]);
                let back = [owner, look, look, jump(opcode, 0, 3, 1), RETURN];
                list.add_each("onto-companion", &with_words(&back), &["11111111", "01010101"]);
            }
            let skip = [abc(op::TEST, 0, 0, 0), owner, look, look, 0, RETURN];
            list.add_each("onto-companion", &with_words(&skip), &["000000", "100000", "111111"]);
        }
    }
}

/// Jumps to each word of a code in which companions look like owners.
fn add_each_word(list: &mut List) {
    let owners = [setlist_long(0, 1), setlist_long(0, 1), closure(0, 0), closure(0, 2), closure(0, 2), 0, 0, RETURN];
    for target in 0..=owners.len() as i32 + 1 {
        let mut code = vec![jump(op::JMP, 0, 0, target)];
        code.extend(owners);
        list.add_each("onto-companion", &with_words(&code), &["0000000000"]);
    }
}

/// Children of each number of upvalues make a jump's target a companion or not.
fn add_children(list: &mut List) {
    for upvalues in 0..5 {
        for target in 1..7 {
            let code = [jump(op::JMP, 0, 0, target), closure(0, 0), closure(0, 0), 0, closure(0, 0), 0];
            let prototype = Prototype { children: vec![upvalues], ..with_words(&code) };
            list.add_each("onto-companion", &prototype, &["000000"]);
        }
    }
}

pub fn add(list: &mut List) {
    add_targets(list);
    add_companions(list);
    add_each_word(list);
    add_children(list);
}
