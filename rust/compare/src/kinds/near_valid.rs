//! Valid images with up to three small changes: an operand or a field by one, an opcode, a word removed or doubled.
use super::{Scale, Visit};
use answers::families::valid;
use answers::image::{image, Image, Source};
use answers::rng::Rng;

/// The fields of a word, as its first bit and its largest value: A, C, B and Bx.
const FIELDS: [(u32, u32); 4] = [(6, 0xff), (14, 0x1ff), (23, 0x1ff), (14, 0x3ffff)];

/// One more or one less: above the largest value comes 0, below 0 the largest value.
fn by_one(rng: &mut Rng, value: u32, most: u32) -> u32 {
    let next = if rng.one_in(2) { value.wrapping_add(1) } else { value.wrapping_sub(1) };
    next & most
}

fn change_operand(rng: &mut Rng, word: u32) -> u32 {
    let (bit, most) = rng.pick(&FIELDS);
    let value = by_one(rng, word >> bit & most, most);
    word & !(most << bit) | value << bit
}

fn change_field(rng: &mut Rng, source: &mut Source) {
    match rng.below(3) {
        0 => source.constants = by_one(rng, source.constants, 0x1ff),
        1 => source.upvalues = by_one(rng, source.upvalues, 0xff),
        _ => source.stack = by_one(rng, source.stack, 0xff),
    }
}

/// Makes one small change in a prototype; in one without words a field is changed.
fn change(rng: &mut Rng, source: &mut Source) {
    if source.code.is_empty() {
        return change_field(rng, source);
    }
    let pc = rng.below(source.code.len() as u32) as usize;
    let word = source.code[pc];
    match rng.below(8) {
        0..=2 => source.code[pc] = change_operand(rng, word),
        3 => source.code[pc] = word & !0x3f | rng.below(40),
        4 => drop(source.code.remove(pc)),
        5 => source.code.insert(pc, word),
        _ => change_field(rng, source),
    }
}

/// One image of the kind.
pub fn one(rng: &mut Rng) -> Image {
    let rows = rng.pick(&[1, 1, 2, 3, 4]);
    let mut sources = valid::sources(rng, rows, 16 / rows);
    for _ in 0..rng.below(4) {
        let row = rng.below(rows) as usize;
        change(rng, &mut sources[row]);
    }
    image(&sources)
}

pub fn each(scale: Scale, rng: &mut Rng, visit: Visit) {
    for _ in 0..scale.of(40_000, 1_500_000) {
        visit(one(rng));
    }
}
