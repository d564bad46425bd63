//! Shapes of prototype tables: child lookup, nests, wide ones, empty prototypes, and a bad one among good ones.
use super::random::{children_of, depths};
use crate::image::{image, Source};
use crate::list::List;
use crate::rng::Rng;
use crate::word::{abc, bind_register, bind_upvalue, closure, op, setlist_long, RETURN};

/// Rows of all shapes, each with closures of its children by index, one past the last now and then.
fn lookups(rng: &mut Rng) -> Vec<Source> {
    let rows = rng.range(2, 11);
    let depths = depths(rng, rows);
    let upvalues: Vec<u32> = (0..rows).map(|row| row % 3).collect();
    let mut sources = Vec::new();
    for row in 0..rows as usize {
        let children = children_of(&depths, row);
        let mut code = Vec::new();
        for _ in 0..rng.below(3) {
            code.push(closure(0, rng.below(children + 1)));
            code.push(rng.pick(&[bind_register(row as u32), bind_upvalue(row as u32), closure(0, 0)]));
        }
        sources.push(Source::main(0, upvalues[row], row as u32 + 1, &code[..code.len().min(3)]).at(depths[row]));
    }
    sources
}

/// A word that breaks a rule.
fn bad_word(rng: &mut Rng) -> u32 {
    let words = [
        abc(63, 0, 0, 0),
        setlist_long(0, 0),
        closure(0, 9),
        abc(op::MOVE, 0, 7, 0),
        abc(op::GETUPVAL, 0, 9, 0),
        abc(op::EQ, 2, 0, 0),
        abc(op::LOADK, 0, 1, 0),
    ];
    rng.pick(&words)
}

/// Good rows and one bad row, not the first.
fn one_bad(rng: &mut Rng) -> Vec<Source> {
    let rows = rng.range(2, 11);
    let bad = rng.range(1, rows - 1) as usize;
    let depths = depths(rng, rows);
    let row = |(row, depth): (usize, &u32)| {
        let code = if row == bad { vec![RETURN, bad_word(rng)] } else { vec![RETURN] };
        Source::main(0, 0, 2, &code).at(*depth)
    };
    depths.iter().enumerate().map(row).collect()
}

/// Rows without code, with upvalues and stacks of all kinds.
fn empties(rng: &mut Rng) -> Vec<Source> {
    let rows = rng.range(1, 11);
    let field = |depth: u32| Source::main(rng.below(2), rng.below(3), rng.pick(&[0, 2, 250, 251, 255]), &[]).at(depth);
    let depths = depths(&mut Rng::new(u64::from(rows)), rows);
    depths.into_iter().map(field).collect()
}

/// A chain of `rows` rows: each makes a closure of the next.
fn chain(rows: u32) -> Vec<Source> {
    let row = |depth| Source::main(0, 1, 2, &[closure(0, 0), bind_register(1), RETURN]).at(depth);
    (0..rows).map(row).collect()
}

/// One row and `children` children beside each other, with a closure of the last child and of the missing one after it.
fn fan(children: u32) -> Vec<Source> {
    let mut sources =
        vec![Source::main(0, 0, 2, &[closure(0, children.wrapping_sub(1) & 0x3ffff), closure(0, children)])];
    sources.extend((0..children).map(|child| Source::main(0, 0, 2 + child, &[RETURN]).at(1)));
    sources
}

pub fn add(list: &mut List) {
    for rows in 1..12 {
        list.add("shape", image(&chain(rows)));
        list.add("shape", image(&fan(rows - 1)));
    }
    for _ in 0..110 {
        let images = [lookups(&mut list.rng), one_bad(&mut list.rng), empties(&mut list.rng)];
        for (number, sources) in images.into_iter().enumerate() {
            if number < 2 || list.rng.one_in(3) {
                list.add(["lookup", "one-bad", "empty"][number], image(&sources));
            }
        }
    }
}
