//! Random prototypes, here of up to twelve words, most of them jumps, skips and owners, with targets near.
use super::list::{random_choices, List};
use crate::execution::Prototype;
use crate::rng::Rng;
use crate::word::{abc, abx, closure, jump, op};

/// Words of a prototype at most.
pub const MOST_WORDS: u32 = 12;

/// A figure below the limit for most, and sometimes one that is not.
fn below(rng: &mut Rng, limit: u32) -> u32 {
    if rng.one_in(8) {
        limit + rng.below(3)
    } else {
        rng.below(limit.max(1))
    }
}

/// A register or a constant, as B or C.
fn rk(rng: &mut Rng, prototype: &Prototype) -> u32 {
    if rng.one_in(2) {
        (256 + below(rng, prototype.constants)).min(511)
    } else {
        below(rng, prototype.stack)
    }
}

/// A jump whose target is a word, or now and then up to two before the first or after the last.
fn near_jump(rng: &mut Rng, opcode: u32, a: u32, pc: usize, words: u32) -> u32 {
    let target = if rng.one_in(6) { rng.below(words + 5) as i32 - 2 } else { rng.below(words) as i32 };
    jump(opcode, a, pc, target)
}

/// A word for a pc of a prototype that gets `words` words.
fn word(rng: &mut Rng, prototype: &Prototype, pc: usize, words: u32) -> u32 {
    let a = below(rng, prototype.stack).min(255);
    let [b, c] = [0, 1].map(|_| rk(rng, prototype));
    let children = prototype.children.len() as u32;
    match rng.below(32) {
        0..=3 => near_jump(rng, op::JMP, a, pc, words),
        4..=7 => near_jump(rng, op::FORLOOP, a, pc, words),
        8 | 9 => near_jump(rng, op::FORPREP, a, pc, words),
        10..=12 => abc(rng.pick(&[op::EQ, op::LT, op::LE]), below(rng, 2), b, c),
        13..=15 => abc(rng.pick(&[op::TEST, op::TESTSET, op::TFORLOOP]), a, b % 256, rng.below(3)),
        16 | 17 => abc(op::LOADBOOL, a, rng.below(2), rng.pick(&[0, 1, 1, 256, 511])),
        18..=21 => closure(a, below(rng, children)),
        22 | 23 => abc(op::SETLIST, a, rng.below(3), rng.pick(&[0, 0, 0, 1, 256])),
        24 => abc(op::RETURN, a, rng.below(3), 0),
        25 | 26 => abc(op::TAILCALL, a, rng.below(3), 0),
        27 => abc(rng.range(38, 63), a, b, c),
        28 => abx(rng.pick(&[op::LOADK, op::GETGLOBAL, op::SETGLOBAL]), a, below(rng, prototype.constants)),
        29 => abc(rng.pick(&[op::GETUPVAL, op::SETUPVAL]), a, below(rng, prototype.upvalues), 0),
        30 => abc(rng.pick(&[op::CALL, op::VARARG, op::CONCAT]), a, rng.below(4), rng.below(4)),
        _ => abc(rng.below(38), a, b, c),
    }
}

/// A prototype's figures and children.
fn without_words(rng: &mut Rng) -> Prototype {
    let children = rng.below(4);
    Prototype {
        constants: rng.pick(&[0, 1, 2, 3, 256]),
        upvalues: rng.below(4),
        stack: rng.pick(&[0, 1, 2, 3, 4, 6, 9, 250, 255]),
        children: (0..children).map(|_| rng.pick(&[0, 1, 1, 2, 2, 3, 4])).collect(),
        words: Vec::new(),
    }
}

/// The prototype with `words` words.
fn filled(rng: &mut Rng, mut prototype: Prototype, words: u32) -> Prototype {
    for pc in 0..words as usize {
        let word = word(rng, &prototype, pc, words);
        prototype.words.push(word);
    }
    prototype
}

/// A prototype of up to `most_words` words; few have none.
pub fn prototype(rng: &mut Rng, most_words: u32) -> Prototype {
    let prototype = without_words(rng);
    let words = if rng.one_in(40) { 0 } else { rng.range(1, most_words) };
    filled(rng, prototype, words)
}

/// A prototype of `words` words.
pub fn prototype_of(rng: &mut Rng, words: u32) -> Prototype {
    let prototype = without_words(rng);
    filled(rng, prototype, words)
}

pub fn add(list: &mut List) {
    for _ in 0..2_000 {
        let prototype = prototype(&mut list.rng, MOST_WORDS);
        let len = list.rng.range(0, 40);
        let choices = random_choices(&mut list.rng, len);
        list.add("random", &prototype, choices);
    }
    for _ in 0..200 {
        let mut prototype = prototype(&mut list.rng, MOST_WORDS);
        prototype.words.iter_mut().for_each(|word| *word = list.rng.bits() as u32);
        let choices = random_choices(&mut list.rng, 12);
        list.add("bits", &prototype, choices);
    }
}
