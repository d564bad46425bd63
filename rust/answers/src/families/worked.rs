//! Document 01's worked examples P1 to P13, the misreadings that it names, and the image of its sample listing.
use crate::image::{image, image_with, Image, Source};
use crate::list::{List, Plan};
use crate::word::{abc, bind_register, closure, op, RETURN};

/// One prototype with one word and no constants.
fn one(word: u32, stack: u32) -> Image {
    image(&[Source::main(0, 0, stack, &[word])])
}

/// One prototype without words.
fn empty(warnings: u32, errors: u32, stack: u32) -> Image {
    image_with(warnings, errors, &[Source::main(0, 0, stack, &[])])
}

/// The code of a main prototype, with a child that has `upvalues` upvalues and returns.
fn with_child(code: &[u32], upvalues: u32) -> Image {
    image(&[Source::main(0, 0, 2, code), Source::main(0, upvalues, 2, &[RETURN]).at(1)])
}

/// P1 to P13 in order; P8, P12 and P13 are two images each.
pub fn examples() -> Vec<(&'static str, Image)> {
    vec![
        ("P1", one(0x7fff_8016, 2)),
        ("P2", one(0x7fff_4016, 2)),
        ("P3", one(0x7fff_c016, 2)),
        ("P4", one(0x0000_003f, 2)),
        ("P5", one(0x0000_0097, 1)),
        ("P6", one(0x0080_0022, 2)),
        ("P7", one(0x0080_0022, 1)),
        ("P8", one(0x0080_001e, 0)),
        ("P8", one(0x0080_001e, 1)),
        ("P9", one(0x0100_c01c, 1)),
        ("P10", with_child(&[0x0000_0024, 0x9600_0000], 1)),
        ("P11", with_child(&[0x0000_0024], 1)),
        ("P12", empty(0, 0, 251)),
        ("P12", empty(0, 0, 250)),
        ("P13", empty(10_000, 0, 2)),
        ("P13", empty(10_000, 1, 2)),
    ]
}

/// The image of the sample listing.
pub fn sample() -> Image {
    image(&[Source::main(1, 0, 2, &[0x0000_4001, 0x0080_001e])])
}

/// Images that tell the misreadings apart which document 01 names.
fn misreadings() -> Vec<Image> {
    let bad = |n: usize| vec![abc(op::JMP, 0, 0, 0); n];
    let mut cut = vec![closure(2, 0)];
    cut.extend(bad(6));
    let mut over = with_child(&cut, 6);
    over.warnings = 9_999;
    let mut reached = over.clone();
    reached.warnings = 9_998;
    vec![
        with_child(&[closure(0, 0), closure(1, 0), bind_register(0), RETURN], 1),
        with_child(&[closure(0, 0), closure(0, 0), closure(0, 0), bind_register(1)], 2),
        with_child(&[closure(0, 0), bind_register(1)], 3),
        with_child(&[closure(0, 0), bind_register(0), bind_register(1)], 5),
        over,
        reached,
        with_child(&[closure(0, 0), bind_register(255), bind_register(256), bind_register(511)], 3),
    ]
}

pub fn add(list: &mut List) {
    for (_, image) in examples() {
        list.push("worked", Plan::Near([0; 3]), image);
    }
    list.push("worked", Plan::Near([0; 3]), sample());
    for image in misreadings() {
        list.push("worked", Plan::Near([0; 3]), image);
    }
}
