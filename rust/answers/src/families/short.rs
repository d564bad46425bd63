//! Every code of up to three words out of a few, under one prototype with two children.
use crate::image::{image, Source};
use crate::list::{List, Plan};
use crate::word::{abc, asbx, bind_register, bind_upvalue, closure, op, setlist_long, RETURN};

/// Words that own companions, bind, jump, skip, or are none of these, with and without a diagnostic of their own.
fn alphabet() -> [u32; 14] {
    [
        RETURN,
        63,
        bind_register(1),
        bind_register(2),
        bind_upvalue(0),
        bind_upvalue(1),
        abc(op::EQ, 0, 0, 0),
        abc(op::LOADBOOL, 0, 0, 1),
        asbx(op::JMP, 0, 1),
        asbx(op::JMP, 0, -2),
        setlist_long(0, 1),
        closure(0, 0),
        closure(0, 1),
        closure(0, 2),
    ]
}

/// All codes one word longer than the given ones.
fn longer(codes: &[Vec<u32>]) -> Vec<Vec<u32>> {
    codes.iter().flat_map(|code| alphabet().map(|word| [&code[..], &[word]].concat())).collect()
}

pub fn add(list: &mut List) {
    let child = |upvalues: u32| Source::main(0, upvalues, 2, &[]).at(1);
    let mut codes = vec![Vec::new()];
    for _ in 0..=3 {
        for code in &codes {
            let main = Source::main(0, 1, 2, code);
            list.push("short", Plan::Near([0; 3]), image(&[main, child(1), child(2)]));
        }
        codes = longer(&codes);
    }
}
