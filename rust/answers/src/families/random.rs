//! Random images: words of every opcode with operands near the limits, and words of random bits.
use crate::image::{image, image_with, Source};
use crate::list::List;
use crate::rng::Rng;
use crate::word::{abc, abx, jump, op};

/// A number near one of the given limits, or anywhere below `end`.
fn near(rng: &mut Rng, limits: &[u32], end: u32) -> u32 {
    let limit = rng.pick(limits);
    match rng.below(8) {
        0 | 1 => limit.saturating_sub(1).min(end - 1),
        2 => limit.min(end - 1),
        3 => (limit + 1).min(end - 1),
        4 => rng.below(end),
        _ => rng.below(limit.max(1).min(end)),
    }
}

/// A word of the given opcode for a prototype of `words` words and `children` children.
pub fn word(rng: &mut Rng, opcode: u32, proto: &Source, pc: usize, words: usize, children: u32) -> u32 {
    let a = near(rng, &[proto.stack, 2], 256);
    match opcode {
        op::JMP | op::FORLOOP | op::FORPREP => jump(opcode, a, pc, rng.below(words as u32 + 4) as i32 - 2),
        op::CLOSURE => abx(opcode, a, near(rng, &[children], 262_144)),
        op::LOADK | op::GETGLOBAL | op::SETGLOBAL => abx(opcode, a, near(rng, &[proto.constants.min(300)], 262_144)),
        _ => {
            let limits = [proto.stack, proto.stack, proto.upvalues, 256 + proto.constants.min(255), 256, 2];
            let a = if (op::EQ..=op::LE).contains(&opcode) { near(rng, &[2], 256) } else { a };
            abc(opcode, a, near(rng, &limits, 512), near(rng, &limits, 512))
        }
    }
}

/// An opcode, most often a known one, with a liking for owners.
pub fn opcode(rng: &mut Rng) -> u32 {
    match rng.below(20) {
        0 => rng.range(38, 63),
        1 | 2 => op::CLOSURE,
        3 => op::SETLIST,
        _ => rng.below(38),
    }
}

/// Depths of `rows` rows in preorder.
pub fn depths(rng: &mut Rng, rows: u32) -> Vec<u32> {
    let mut depths = vec![0];
    while depths.len() < rows as usize {
        let last = depths[depths.len() - 1];
        depths.push(rng.range(1, last + 1));
    }
    depths
}

/// How many children a row has.
pub fn children_of(depths: &[u32], row: usize) -> u32 {
    let below = depths[row + 1..].iter().take_while(|depth| **depth > depths[row]);
    below.filter(|depth| **depth == depths[row] + 1).count() as u32
}

/// A prototype with small random fields and no code.
fn fields(rng: &mut Rng, depth: u32) -> Source {
    Source {
        depth,
        constants: rng.pick(&[0, 1, 2, 3, 5, 40, 256, 300]),
        upvalues: rng.pick(&[0, 0, 1, 1, 2, 3, 4, 6]),
        stack: rng.pick(&[0, 1, 2, 3, 4, 6, 9, 20, 250, 255]),
        code: Vec::new(),
    }
}

/// `rows` rows with at most `most_words` words each.
pub fn sources(rng: &mut Rng, rows: u32, most_words: u32) -> Vec<Source> {
    let depths = depths(rng, rows);
    let mut sources = Vec::new();
    for (row, depth) in depths.iter().enumerate() {
        let mut source = fields(rng, *depth);
        let words = rng.range(0, most_words) as usize;
        for pc in 0..words {
            let opcode = opcode(rng);
            let word = word(rng, opcode, &source, pc, words, children_of(&depths, row));
            source.code.push(word);
        }
        sources.push(source);
    }
    sources
}

pub fn add(list: &mut List) {
    for number in 0..420 {
        let rows = list.rng.pick(&[1, 1, 2, 3, 4, 6]);
        let sources = sources(&mut list.rng, rows, if rows < 3 { 14 } else { 6 });
        let warnings = if number % 10 == 0 { list.rng.below(4) } else { 0 };
        let errors = if number % 25 == 0 { list.rng.below(3) } else { 0 };
        list.add("random", image_with(warnings, errors, &sources));
    }
    for _ in 0..150 {
        let rows = list.rng.range(1, 3);
        let mut sources = sources(&mut list.rng, rows, 10);
        for word in sources.iter_mut().flat_map(|source| &mut source.code) {
            *word = list.rng.bits() as u32;
        }
        list.add("bits", image(&sources));
    }
}
