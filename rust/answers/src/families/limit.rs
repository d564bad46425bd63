//! The neighbourhood of the diagnostic limit, and large incoming numbers.
use crate::image::{image_with, Source};
use crate::list::List;
use crate::rng::Rng;
use crate::word::{abc, bind_register, closure, op, setlist_long, RETURN};

/// A word with one diagnostic: no known opcode.
pub const BAD: u32 = 63;
/// A word with three: ADD of registers 9.
const THREE: u32 = op::ADD | 9 << 6 | 9 << 14 | 9 << 23;

/// A CLOSURE whose five companions have one each, at a child of five upvalues.
fn five() -> Vec<u32> {
    let mut code = vec![closure(0, 0)];
    code.extend([BAD; 5]);
    code
}

pub fn row(depth: u32, stack: u32, code: &[u32]) -> Source {
    Source::main(0, 0, stack, code).at(depth)
}

/// A child of five upvalues.
fn child(stack: u32) -> Source {
    Source::main(0, 5, stack, &[]).at(1)
}

/// Images in which the limit can be reached at each of its tests.
fn templates() -> Vec<Vec<Source>> {
    let truncated = [BAD, closure(0, 0), bind_register(0)];
    vec![
        vec![row(0, 2, &[])],
        vec![row(0, 251, &[])],
        vec![row(0, 251, &[RETURN])],
        vec![row(0, 2, &[RETURN]), row(1, 2, &[])],
        vec![row(0, 251, &[]), row(1, 251, &[]), row(2, 251, &[]), row(1, 251, &[])],
        vec![row(0, 2, &[BAD, RETURN, BAD, THREE, BAD])],
        vec![row(0, 2, &[THREE, THREE])],
        vec![row(0, 2, &[BAD, setlist_long(0, 9)])],
        vec![row(0, 251, &truncated), child(251)],
        vec![row(0, 2, &[&five()[..], &[BAD]].concat()), child(2)],
        vec![row(0, 251, &[&[BAD][..], &five()[..3]].concat()), child(251), row(1, 2, &[BAD])],
        vec![row(0, 2, &[RETURN]), row(1, 2, &[BAD]), row(2, 251, &[BAD]), row(1, 2, &[BAD, BAD])],
        vec![row(0, 251, &[RETURN, RETURN]), row(1, 251, &[RETURN]), row(1, 2, &[RETURN])],
    ]
}

/// Every template with incoming diagnostics that bring the limit near: all warnings, mixed, and all errors.
fn add_near(list: &mut List) {
    for sources in templates() {
        for total in 9_996..=10_003 {
            let errors = [0, 0, 1, total, 4_000][total as usize % 5];
            list.add("limit", image_with(total, 0, &sources));
            if errors > 0 {
                list.add("limit", image_with(total - errors, errors, &sources));
            }
        }
    }
}

/// Incoming numbers whose sum does not fit 32 bits, others far above the limit or just around it, and small ones.
fn add_huge(list: &mut List) {
    let most = u32::MAX;
    let numbers = [
        [most, 0],
        [0, most],
        [most, most],
        [most, 1],
        [1, most],
        [1 << 31, 1 << 31],
        [1 << 31, 0],
        [most, 9_999],
        [9_999, most],
        [most - 9_998, 9_999],
        [most, 0],
        [10_001, 0],
        [65_536, 0],
        [100_000, 0],
        [0, 10_000],
        [9_999, 1],
        [9_998, 1],
        [0, 9_999],
        [9_999, 0],
    ];
    for [warnings, errors] in numbers {
        list.add("incoming", image_with(warnings, errors, &[row(0, 2, &[RETURN])]));
        list.add("incoming", image_with(warnings, errors, &[row(0, 255, &[BAD]), row(1, 251, &[])]));
    }
    for [warnings, errors] in [[1, 0], [0, 1], [3, 2], [0, 2], [5_000, 0]] {
        for sources in [vec![row(0, 2, &[RETURN])], vec![row(0, 251, &[])], vec![row(0, 2, &[BAD])]] {
            list.add("incoming", image_with(warnings, errors, &sources));
        }
    }
}

/// A random tree of rows with a stack warning or not and words of none, one, three or five diagnostics.
pub fn random(rng: &mut Rng) -> Vec<Source> {
    let mut sources = Vec::new();
    for number in 0..rng.range(1, 5) {
        let mut code = Vec::new();
        for _ in 0..rng.below(4) {
            match rng.below(4) {
                0 => code.push(RETURN),
                1 => code.push(BAD),
                2 => code.push(THREE),
                _ => code.extend(five()),
            }
        }
        code.truncate(7);
        let depth = if number == 0 { 0 } else { 1 + rng.below(2).min(number - 1) };
        sources.push(row(depth, rng.pick(&[2, 251, 255]), &code));
    }
    sources[0].code.extend(rng.pick(&[&[][..], &[closure(0, 0)], &[setlist_long(0, 0)]]));
    if sources.len() > 1 {
        sources[1].depth = 1;
        sources[1].upvalues = rng.below(6);
    }
    sources
}

pub fn add(list: &mut List) {
    add_near(list);
    add_huge(list);
    for _ in 0..200 {
        let total = list.rng.range(9_985, 10_002);
        let errors = if list.rng.one_in(4) { list.rng.below(total) } else { 0 };
        let sources = random(&mut list.rng);
        list.add("limit", image_with(total - errors, errors, &sources));
    }
    for _ in 0..20 {
        let stack = list.rng.pick(&[250, 251, 252, 255]);
        let word = abc(op::MOVE, stack - 1, list.rng.range(249, 256), 0);
        let warnings = list.rng.range(9_996, 10_000);
        list.add("limit", image_with(warnings, 0, &[row(0, stack, &[word]), row(1, 251, &[])]));
    }
}
