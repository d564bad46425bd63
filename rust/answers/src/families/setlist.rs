//! SETLIST with C = 0: its extra word, also missing, looking like an owner, or the target of jumps and skips.
use crate::image::{image, Source};
use crate::list::List;
use crate::rng::Rng;
use crate::word::{abc, abx, bind_register, closure, jump, op, setlist_long, RETURN};

fn with_child(code: &[u32], stack: u32) -> Vec<Source> {
    vec![Source::main(1, 1, stack, code), Source::main(0, 2, 2, &[RETURN]).at(1)]
}

/// An extra word of every opcode, last and followed by others.
fn add_extras(list: &mut List) {
    for opcodes in (0..64).collect::<Vec<u32>>().chunks(8) {
        let code: Vec<u32> = opcodes.iter().flat_map(|opcode| [setlist_long(0, 1), abx(*opcode, 0, 0)]).collect();
        list.add("setlist", image(&with_child(&code, 2)));
        let code: Vec<u32> = code[1..].to_vec();
        list.add("setlist", image(&with_child(&code, 2)));
    }
}

/// Spans A + B around the stack, with C = 0 and not 0.
fn add_spans(list: &mut List) {
    for stack in [1, 3] {
        for a in 0..4 {
            for b in [0, 1, stack - a.min(stack), stack, 511] {
                let c = (a + b) % 3;
                list.add("setlist", image(&with_child(&[abc(op::SETLIST, a, b, c), RETURN], stack)));
            }
        }
    }
}

/// Owners, their companions, and words that come to them.
fn random(rng: &mut Rng) -> Vec<Source> {
    let words = rng.range(1, 14) as usize;
    let mut code = Vec::new();
    for pc in 0..words {
        let target = rng.below(words as u32 + 1) as i32;
        code.push(match rng.below(9) {
            0..=2 => abc(op::SETLIST, rng.below(3), rng.below(3), 0),
            3 => abc(op::SETLIST, rng.below(3), rng.below(3), rng.below(3)),
            4 => jump(rng.pick(&[op::JMP, op::FORPREP, op::FORLOOP]), 0, pc, target),
            5 => abc(rng.pick(&[op::EQ, op::LT, op::LE, op::TEST, op::TESTSET]), rng.below(2), 0, 0),
            6 => rng.pick(&[abc(op::TFORLOOP, 0, 0, 1), abc(op::LOADBOOL, 0, 0, 1)]),
            7 => closure(0, rng.below(2)),
            _ => bind_register(rng.below(3)),
        });
    }
    with_child(&code, 4)
}

pub fn add(list: &mut List) {
    add_extras(list);
    add_spans(list);
    for _ in 0..180 {
        let sources = random(&mut list.rng);
        list.add("setlist", image(&sources));
    }
}
