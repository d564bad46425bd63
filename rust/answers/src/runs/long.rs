//! Prototypes of 40 to 80 words, and a few of more than 256: every kind of word at late pcs, words of one kind at every pc,
//! exits from late pcs, owners that the end cuts off, and random ones.
use super::list::{random_choices, List};
use super::random::{prototype_of, MOST_WORDS};
use super::with_words;
use super::words::kinds;
use crate::rng::Rng;
use crate::word::{abc, asbx, bind_register, bind_upvalue, closure, jump, op, setlist_long, RETURN};

const MOVE: u32 = 0;

/// Words of a prototype, at least and at most.
const WORDS: [u32; 2] = [40, 80];

/// A number of words.
fn words(rng: &mut Rng) -> u32 {
    rng.range(WORDS[0], WORDS[1])
}

/// A pc that no shorter prototype has, with at least `after` of the `words` words after it.
fn late_pc(rng: &mut Rng, words: u32, after: u32) -> usize {
    rng.range(MOST_WORDS, words - 1 - after) as usize
}

/// A code that jumps at once to a pc, at which these words stand; the other words go on.
fn with_late(words: u32, pc: usize, late: &[u32]) -> Vec<u32> {
    let mut code = vec![MOVE; words as usize];
    code[0] = jump(op::JMP, 0, 0, pc as i32);
    code[pc..pc + late.len()].copy_from_slice(late);
    code
}

/// The word; a jump gets a target seven words before it.
fn back(word: u32) -> u32 {
    match word & 0x3f {
        opcode @ (op::JMP | op::FORPREP | op::FORLOOP) => asbx(opcode, 0, -8),
        _ => word,
    }
}

/// Every kind of word at two late pcs, one by chance and one near the end, under both choices, before words that can be its
/// companions or jump back to it; and there as a companion.
fn add_kinds(list: &mut List) {
    for word in kinds().map(back) {
        for near_end in [false, true] {
            let words = words(&mut list.rng);
            let pc = if near_end { words as usize - 5 } else { late_pc(&mut list.rng, words, 4) };
            let again = [2, 3].map(|after| jump(op::JMP, 0, pc + after, pc as i32));
            let code = with_late(words, pc, &[word, MOVE, again[0], again[1], RETURN]);
            list.add_each("late", &with_words(&code), &["00", "11"]);
            let code = with_late(words, pc, &[word, word, bind_register(1), bind_upvalue(1)]);
            let choices = random_choices(&mut list.rng, 6);
            list.add("late", &with_words(&code), choices);
            let mut code = with_late(words, pc, &[word, MOVE, MOVE]);
            code[pc - 1] = setlist_long(0, 1);
            list.add_each("late", &with_words(&code), &["00", "11"]);
        }
    }
}

/// Words of one kind at every pc, from the first to the last, and as many choices and more.
fn add_every_pc(list: &mut List) {
    let jumps = [asbx(op::JMP, 0, 0), asbx(op::FORPREP, 0, 1), asbx(op::FORLOOP, 0, 2)];
    let skips = [op::EQ, op::LT, op::LE, op::TEST, op::TESTSET, op::TFORLOOP].map(|opcode| abc(opcode, 1, 0, 1));
    let owners = [setlist_long(0, 1), closure(0, 0), closure(0, 2)];
    let others = [MOVE, 63, abc(op::LOADBOOL, 0, 0, 1), abc(op::TAILCALL, 0, 1, 0)];
    for word in [&jumps[..], &skips, &owners, &others].concat() {
        let prototype = with_words(&[word; WORDS[1] as usize]);
        for on in ["0", "1"] {
            list.add_each("every-pc", &prototype, &[&on.repeat(90)]);
        }
        let choices = random_choices(&mut list.rng, 90);
        list.add("every-pc", &prototype, choices);
    }
}

/// Exits from late pcs, before the first word and past the last, both near and as far as sBx reaches.
fn add_exits(list: &mut List) {
    for opcode in [op::JMP, op::FORPREP, op::FORLOOP] {
        for _ in 0..3 {
            let words = words(&mut list.rng);
            let pc = late_pc(&mut list.rng, words, 0);
            let targets = [-1, -2, -3, -40, words as i32, words as i32 + 1];
            let near = targets.map(|target| jump(opcode, 0, pc, target));
            let far = [-131_071, -131_070, -131_000, 131_072].map(|sbx| asbx(opcode, 0, sbx));
            for word in near.into_iter().chain(far) {
                list.add_each("late-exit", &with_words(&with_late(words, pc, &[word])), &["11"]);
            }
        }
    }
}

/// Owners at the end, with all their companions, with some, and with none, that a jump or the straight way comes to.
fn add_truncated(list: &mut List) {
    for (owner, owned) in [(setlist_long(0, 1), 1), (closure(0, 0), 1), (closure(0, 2), 2)] {
        for existing in (0..=owned).flat_map(|existing| [existing; 3]) {
            let words = words(&mut list.rng);
            let late = [&[owner][..], &[bind_register(1), bind_upvalue(1)][..existing]].concat();
            let mut code = with_late(words, words as usize - late.len(), &late);
            list.add_each("late-truncated", &with_words(&code), &["00", "111"]);
            code[0] = MOVE;
            list.add_each("late-truncated", &with_words(&code), &[&"0".repeat(words as usize)]);
        }
    }
}

/// Random prototypes of `least` to `most` words, half of which begin with a jump to their second half.
fn add_random(list: &mut List, family: &'static str, count: u32, [least, most]: [u32; 2]) {
    for number in 0..count {
        let words = list.rng.range(least, most);
        let mut prototype = prototype_of(&mut list.rng, words);
        if number % 2 == 0 {
            let target = list.rng.range(words / 2, words - 1);
            prototype.words[0] = jump(op::JMP, 0, 0, target as i32);
        }
        let most_choices = list.rng.pick(&[8, 40, 100]);
        let len = list.rng.range(0, most_choices);
        let choices = random_choices(&mut list.rng, len);
        list.add(family, &prototype, choices);
    }
}

pub fn add(list: &mut List) {
    add_kinds(list);
    add_every_pc(list);
    add_exits(list);
    add_truncated(list);
    add_random(list, "long", 150, WORDS);
    add_random(list, "longer", 10, [257, 300]);
}
