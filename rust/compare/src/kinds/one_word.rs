//! Every word of all 64 opcodes with A, B and C at boundaries, alone in a prototype.
use super::{Scale, Visit};
use answers::image::{image, Source};
use answers::rng::Rng;
use answers::word::abc;

const A: [u32; 7] = [0, 1, 2, 249, 250, 251, 255];
const B: [u32; 10] = [0, 1, 2, 3, 250, 251, 255, 256, 257, 511];
/// With B 255 or 256 these make sBx -3 to 2, so that jumps end about the word.
const C: [u32; 12] = [0, 1, 2, 3, 250, 251, 255, 256, 257, 509, 510, 511];

/// Constants, upvalues and stack, and the upvalues of an only child.
const FIGURES: [([u32; 3], Option<u32>); 12] = [
    ([0, 0, 2], None),
    ([1, 1, 2], Some(1)),
    ([0, 1, 250], None),
    ([2, 0, 251], Some(0)),
    ([0, 0, 0], None),
    ([1, 0, 1], Some(2)),
    ([256, 255, 255], None),
    ([255, 2, 4], Some(0)),
    ([3, 251, 3], None),
    ([1, 250, 252], Some(255)),
    ([0, 3, 254], None),
    ([512, 1, 5], Some(1)),
];

pub fn each(scale: Scale, _: &mut Rng, visit: Visit) {
    for ([constants, upvalues, stack], child) in &FIGURES[..scale.of(2, 12) as usize] {
        for opcode in 0..64 {
            for (a, b, c) in operands() {
                let mut sources = vec![Source::main(*constants, *upvalues, *stack, &[abc(opcode, a, b, c)])];
                sources.extend(child.map(|upvalues| Source::main(0, upvalues, 2, &[]).at(1)));
                visit(image(&sources));
            }
        }
    }
}

fn operands() -> impl Iterator<Item = (u32, u32, u32)> {
    A.into_iter().flat_map(|a| B.into_iter().flat_map(move |b| C.into_iter().map(move |c| (a, b, c))))
}
