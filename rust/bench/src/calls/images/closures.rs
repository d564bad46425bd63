//! Images of a main prototype whose code is mostly CLOSUREs, and of children without words.
use super::nested::plain_word;
use super::{children_for, CONSTANTS, SEED, STACK};
use answers::image::{image, Image, Source};
use answers::limits::{MAX_ROWS, MAX_WORDS};
use answers::rng::Rng;
use answers::word::{bind_register, bind_upvalue, closure, RETURN};

/// Binding words of `upvalues` upvalues: registers and upvalues of the main row by turns.
fn bind_by_turns(upvalues: u32) -> impl Iterator<Item = u32> {
    (0..upvalues).map(|j| if j % 2 == 0 { bind_register(j % STACK) } else { bind_upvalue(j % STACK) })
}

/// A main row with the given code, and children without words, given by their upvalues.
fn fan(code: &[u32], children: &[u32]) -> Image {
    let mut sources = vec![Source::main(CONSTANTS, STACK, STACK, code)];
    sources.extend(children.iter().map(|upvalues| Source::main(0, *upvalues, STACK, &[]).at(1)));
    image(&sources)
}

/// A code of CLOSUREs that all name the last child, with their binding words. The children are given by their upvalues.
fn closures_of_last(words: usize, children: &[u32]) -> Image {
    let last = children.len() - 1;
    let mut group = vec![closure(0, last as u32)];
    group.extend(bind_by_turns(children[last]));
    let mut code = group.repeat(words / group.len());
    code.resize(words, RETURN);
    fan(&code, children)
}

/// CLOSUREs of the last child, where each child has `upvalues` upvalues.
pub fn same_last_child(words: usize, upvalues: u32) -> Image {
    closures_of_last(words, &vec![upvalues; children_for(words)])
}

/// CLOSUREs of the last child, where only that one has upvalues.
pub fn only_last_child(words: usize, upvalues: u32) -> Image {
    let mut children = vec![0; children_for(words)];
    *children.last_mut().expect("a child") = upvalues;
    closures_of_last(words, &children)
}

/// A code of `words` CLOSUREs, and `children` children without upvalues; `child` gives the number that each one names.
fn closures(words: usize, children: usize, mut child: impl FnMut(usize) -> usize) -> Image {
    let code: Vec<u32> = (0..words).map(|pc| closure(0, child(pc) as u32)).collect();
    fan(&code, &vec![0; children])
}

/// CLOSUREs that name the first and the last child by turns.
pub fn first_and_last(words: usize, children: usize) -> Image {
    closures(words, children, |pc| pc % 2 * (children - 1))
}

/// CLOSUREs that each name the child before the last one named; after the first child comes the last.
pub fn falling(words: usize, children: usize) -> Image {
    closures(words, children, |pc| children - 1 - pc % children)
}

/// CLOSUREs that name children by chance.
pub fn in_random_order(words: usize, children: usize) -> Image {
    let mut rng = Rng::new(SEED);
    closures(words, children, |_| rng.below(children as u32) as usize)
}

/// A CLOSURE of each of as many children as there can be, rising, with its binding words, and other words after them.
pub fn rising() -> Image {
    let mut rng = Rng::new(SEED);
    let children: Vec<u32> = (1..MAX_ROWS).map(|_| rng.range(0, 5)).collect();
    let mut code = Vec::new();
    for (child, upvalues) in children.iter().enumerate() {
        code.push(closure(0, child as u32));
        code.extend(bind_by_turns(*upvalues));
    }
    code.extend((code.len()..MAX_WORDS).map(|_| plain_word(&mut rng)));
    fan(&code, &children)
}

/// A code of any bits, with 4,096 children of any number of upvalues.
pub fn any_bits() -> Image {
    let mut rng = Rng::new(SEED);
    let children: Vec<u32> = (0..4_096).map(|_| rng.below(256)).collect();
    let code: Vec<u32> = (0..MAX_WORDS).map(|_| rng.bits() as u32).collect();
    fan(&code, &children)
}

/// CLOSUREs that all name a child that is missing, where only a search past all the rows below the one child shows it.
pub fn same_missing_child() -> Image {
    let mut sources = vec![Source::main(CONSTANTS, 0, STACK, &vec![closure(0, 1); MAX_WORDS])];
    sources.extend((1..MAX_ROWS).map(|row| Source::main(0, 0, STACK, &[]).at(1 + u32::from(row > 1))));
    image(&sources)
}
