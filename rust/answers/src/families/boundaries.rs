//! The limits of the fields, and buffer lengths around the exact ones.
use crate::image::{image, Image, Source};
use crate::list::{List, Plan};
use crate::word::{abc, abx, asbx, bind_register, bind_upvalue, closure, op, setlist_long, RETURN};

/// Stacks around 250 and 255 with registers around them.
fn add_stacks(list: &mut List) {
    for stack in [0, 1, 249, 250, 251, 252, 253, 254, 255] {
        let last = u32::saturating_sub(stack, 1);
        let words = [
            RETURN,
            abc(op::MOVE, last, stack, 0),
            abc(op::MOVE, stack, last, 0),
            abc(op::CONCAT, last, last, stack),
            abc(op::EQ, 0, stack, 255),
            abc(op::SELF, last, last, 256),
            asbx(op::FORLOOP, last.saturating_sub(3), -1),
            asbx(op::FORPREP, last.saturating_sub(2), -1),
            abc(op::TFORLOOP, 0, 0, last.saturating_sub(2)),
            abc(op::TFORLOOP, 255, 0, 511),
            abc(op::CALL, 0, stack, stack + 1),
            abc(op::CALL, 255, 511, 511),
            abc(op::TAILCALL, last, 2, 0),
            abc(op::RETURN, 0, stack + 2, 0),
            abc(op::VARARG, 0, stack + 1, 0),
            abc(op::SETLIST, 0, last, 1),
            abc(op::SETLIST, 255, 511, 511),
        ];
        list.add("stack", image(&[Source::main(1, 0, stack, &words)]));
        list.add("stack", image(&[Source::main(1, 0, stack, &[])]));
        list.add("stack", image(&[Source::main(1, 0, stack, &words[1..4]), Source::main(0, 0, stack, &[]).at(1)]));
    }
}

/// Numbers of constants around the reach of Bx and of RK operands, and at the limit.
fn add_constants(list: &mut List) {
    for constants in [0, 1, 2, 255, 256, 257, 131_072, 262_142, 262_143, 262_144, 262_145, 2_147_483_646, 2_147_483_647]
    {
        let below = u32::saturating_sub(constants, 1);
        let words = [
            abx(op::LOADK, 0, below.min(262_143)),
            abx(op::LOADK, 0, constants.min(262_143)),
            abx(op::GETGLOBAL, 0, 262_143),
            abx(op::SETGLOBAL, 1, 262_142),
            abc(op::ADD, 0, 256 + below.min(255), 256 + constants.min(255)),
            abc(op::SETTABLE, 0, 511, 510),
            abc(op::GETTABLE, 0, 1, 511),
            abc(op::SELF, 0, 1, 256),
            abc(op::LT, 0, 256, 257),
        ];
        list.add("constants", image(&[Source::main(constants, 0, 2, &words)]));
        for word in &words[..4] {
            list.add("constants", image(&[Source::main(constants, 0, 2, &[*word])]));
        }
        list.add("constants", image(&[Source::main(0, 0, 2, &[]), Source::main(constants, 0, 2, &words[1..3]).at(1)]));
    }
}

/// B around the number of upvalues, for numbers up to the limit of 255.
fn add_upvalues(list: &mut List) {
    for upvalues in [0, 1, 2, 254, 255] {
        let near = [0, u32::saturating_sub(upvalues, 1), upvalues, upvalues + 1, 255, 256, 511];
        let mut code = near.map(|b| abc(op::GETUPVAL, 0, b, 0)).to_vec();
        code.extend(near.map(|b| abc(op::SETUPVAL, 1, b, 0)));
        list.add("upvalues", image(&[Source::main(0, upvalues, 2, &code)]));
        for b in near {
            let bound = Source::main(0, upvalues, 2, &[closure(0, 0), bind_upvalue(b), bind_register(b)]);
            if upvalues < 254 || b > 253 {
                list.add("upvalues", image(&[bound, Source::main(0, 2, 2, &[]).at(1)]));
            }
        }
    }
    for upvalues in [254, 255] {
        let child = Source::main(0, upvalues, 2, &[RETURN]).at(1);
        list.add("upvalues", image(&[Source::main(0, 0, 2, &[closure(0, 0), bind_register(1)]), child]));
    }
}

/// Images with and without records of each kind.
fn images_for_buffers() -> Vec<Image> {
    let child = |upvalues: u32| Source::main(0, upvalues, 2, &[RETURN]).at(1);
    vec![
        image(&[Source::main(0, 0, 2, &[RETURN])]),
        image(&[Source::main(0, 0, 2, &[63, 62]), child(1)]),
        image(&[
            Source::main(0, 0, 2, &[closure(0, 0), bind_register(2), bind_register(1), setlist_long(0, 2)]),
            child(2),
        ]),
        image(&[Source::main(0, 1, 251, &[])]),
        image(&[Source::main(0, 0, 2, &[])]),
    ]
}

/// Buffers of the exact size, some bytes short of it, and larger.
fn add_buffers(list: &mut List) {
    let none = i64::from(i32::MIN);
    for image in images_for_buffers() {
        for (change, record) in [(none, 0), (-1, -1), (-1, 0), (0, -1), (1, 0), (-1, 1), (4_096, 0)] {
            list.push("buffer", Plan::Near([change + 8 * record, 0, 0]), image.clone());
            list.push("buffer", Plan::Near([0, change + 12 * record, 0]), image.clone());
            list.push("buffer", Plan::Near([0, 0, change + 16 * record]), image.clone());
        }
        list.push("buffer", Plan::Near([none; 3]), image.clone());
    }
}

pub fn add(list: &mut List) {
    add_stacks(list);
    add_constants(list);
    add_upvalues(list);
    add_buffers(list);
}
