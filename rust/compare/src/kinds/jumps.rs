//! Jumps before, to and past both ends of a code and onto companions, and skips, in codes with owners.
use super::{Scale, Visit};
use answers::image::{image, Source};
use answers::rng::Rng;
use answers::word::{abc, bind_register, closure, jump, op, setlist_long, RETURN};

/// A code of plain words and of owners with all or some of their companions, under a child of two upvalues.
fn code(rng: &mut Rng) -> Vec<u32> {
    let mut code = Vec::new();
    for _ in 0..rng.range(1, 4) {
        match rng.below(4) {
            0 => code.extend([closure(0, 0), bind_register(0), bind_register(1)]),
            1 => code.extend([setlist_long(0, 1), rng.pick(&[0, closure(0, 0), setlist_long(0, 1)])]),
            2 => code.push(abc(op::LOADBOOL, 0, 0, 1)),
            _ => code.push(RETURN),
        }
    }
    code.truncate(rng.pick(&[3, 4, 20]));
    code
}

/// Hands on the code with each word replaced by a jump to each target, and by a skip.
fn each_in(rng: &mut Rng, code: &[u32], visit: Visit) {
    let count = code.len() as i32;
    for pc in 0..code.len() {
        let opcode = rng.pick(&[op::JMP, op::FORLOOP, op::FORPREP]);
        let mut words: Vec<u32> = (-2..=count + 1).map(|target| jump(opcode, 0, pc, target)).collect();
        words.push(jump(opcode, 0, pc, pc as i32 + rng.pick(&[-131_070, 131_073, 131_072, 5_000])));
        let skips = [abc(op::LE, 0, 0, 1), abc(op::TEST, 1, 0, 0), abc(op::TFORLOOP, 0, 0, 1)];
        words.push(rng.pick(&skips));
        for word in words {
            let mut main = Source::main(1, 0, 4, code);
            main.code[pc] = word;
            visit(image(&[main, Source::main(0, 2, 2, &[RETURN]).at(1)]));
        }
    }
}

pub fn each(scale: Scale, rng: &mut Rng, visit: Visit) {
    for _ in 0..scale.of(200, 3_000) {
        let code = code(rng);
        each_in(rng, &code, visit);
    }
}
