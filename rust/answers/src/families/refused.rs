//! The refusals 1, 2 and 4 to 8, each alone and in pairs; 3 needs large images and is among those.
use crate::image::{image, le_bytes, Buffers, Image, Source};
use crate::list::{List, Plan};
use crate::rng::Rng;
use crate::word::{bind_register, closure, op, RETURN};

/// Four rows with records of all kinds, and buffers that fit.
pub fn base() -> Image {
    let code = [closure(0, 0), bind_register(1), op::LOADK, RETURN];
    let mut image = image(&[
        Source::main(0, 0, 2, &code),
        Source::main(1, 1, 2, &[RETURN]).at(1),
        Source::main(1, 2, 3, &[RETURN, RETURN]).at(2),
        Source::main(1, 0, 2, &[]).at(1),
    ]);
    image.buffers = Buffers { roles: 56, bindings: 36, diagnostics: 16 };
    image
}

/// Sets a field of a row; where the table is too short, nothing.
pub fn set(image: &mut Image, row: usize, field: usize, value: u32) {
    let at = 20 * row + 4 * field;
    if let Some(bytes) = image.table.get_mut(at..at + 4) {
        bytes.copy_from_slice(&value.to_le_bytes());
    }
}

/// Makes an image wrong so that a refusal applies, in one of a few ways.
pub fn wrong(image: &mut Image, refusal: u32, way: u32) {
    let way_of = |ways: u32| way % ways;
    match refusal {
        1 => image.table.clear(),
        2 => wrong_length(image, way_of(6)),
        4 => wrong_depth(image, way_of(7)),
        5 => wrong_field(image, way_of(8)),
        6 => wrong_words(image, way_of(7)),
        7 => image.buffers.roles = [55, 0, 48, 7][way_of(4) as usize],
        8 => {
            image.buffers.bindings = [35, 24, 0, 36][way_of(4) as usize];
            image.buffers.diagnostics = [15, 0, 16, 8][way_of(4) as usize];
        }
        _ => panic!("refusal {refusal} is not made here"),
    }
}

fn wrong_length(image: &mut Image, way: u32) {
    let len = image.table.len();
    match way {
        0 => image.table.push(0),
        1 => image.table.truncate(len.saturating_sub(1)),
        2 => image.table.extend([1, 0, 0, 0]),
        3 => image.table.truncate(1),
        4 => image.table.truncate(19),
        _ => image.table.extend([7; 19]),
    }
}

fn wrong_depth(image: &mut Image, way: u32) {
    match way {
        0 => set(image, 0, 0, 1),
        1 => set(image, 1, 0, 0),
        2 => set(image, 1, 0, 2),
        3 => set(image, 2, 0, 3),
        4 => set(image, 3, 0, 0),
        5 => set(image, 3, 0, u32::MAX),
        _ => set(image, 3, 0, 200),
    }
}

fn wrong_field(image: &mut Image, way: u32) {
    match way {
        0 => set(image, 0, 2, 2_147_483_648),
        1 => set(image, 1, 3, 256),
        2 => set(image, 2, 4, 256),
        3 => set(image, 3, 2, u32::MAX),
        4 => set(image, 3, 3, u32::MAX),
        5 => set(image, 3, 4, 2_147_483_648),
        6 => set(image, 0, 4, 65_536),
        _ => set(image, 0, 3, 511),
    }
}

fn wrong_words(image: &mut Image, way: u32) {
    match way {
        0 => image.words.push(0),
        1 => image.words.truncate(image.words.len().saturating_sub(1)),
        2 => image.words.extend(le_bytes(&[RETURN])),
        3 => image.words.truncate(image.words.len().saturating_sub(4)),
        4 => image.words.clear(),
        // the rows' words add up to 2^32 + 7, which is right modulo 2^32
        5 => {
            set(image, 1, 1, u32::MAX - 2);
            set(image, 3, 1, 4);
        }
        // the sum of the bytes is right modulo 2^32
        _ => set(image, 3, 1, 1 << 30),
    }
}

fn add_alone(list: &mut List) {
    list.push("refused", Plan::Lengths(base().buffers), base());
    for (refusal, ways) in [(1, 1), (2, 6), (4, 7), (5, 8), (6, 7), (7, 4), (8, 4)] {
        for way in 0..ways {
            let mut image = base();
            wrong(&mut image, refusal, way);
            list.push("refused", Plan::Lengths(image.buffers), image);
        }
    }
}

/// Two refusals at once, in several ways each; the later is made first, while the table still has its rows.
fn add_pairs(list: &mut List) {
    let refusals = [1, 2, 4, 5, 6, 7, 8];
    for (number, first) in refusals.into_iter().enumerate() {
        for second in refusals.into_iter().skip(number + 1) {
            for way in 0..7 {
                let mut image = base();
                wrong(&mut image, second, way);
                wrong(&mut image, first, way * 3 + 1);
                list.push("refused", Plan::Lengths(image.buffers), image);
            }
        }
    }
}

/// Some refusals at once, by chance; now and then a table or words of random bytes.
pub fn random(rng: &mut Rng) -> Image {
    let mut image = base();
    image.warnings = rng.pick(&[0, 0, 1, 9_999, 10_000]);
    image.errors = rng.pick(&[0, 0, 0, 1, 10_000]);
    for refusal in [8, 7, 6, 5, 4, 2] {
        if rng.one_in(4) {
            wrong(&mut image, refusal, rng.below(100));
        }
    }
    if rng.one_in(8) {
        let bytes = rng.below(100) as usize;
        image.table = (0..bytes).map(|_| rng.below(3) as u8 * rng.below(2) as u8).collect();
    }
    if rng.one_in(8) {
        let bytes = rng.below(30) as usize;
        image.words = (0..bytes).map(|_| rng.bits() as u8).collect();
    }
    image
}

/// Every table length up to three rows, and every length of the words up to 33 bytes.
fn add_lengths(list: &mut List) {
    for len in 0..=60 {
        let mut image = base();
        image.table.truncate(len);
        image.words.truncate([28, 16, 20, 28][len / 20]);
        list.push("length", Plan::Lengths(image.buffers), image);
    }
    for len in 0..=33 {
        let mut image = base();
        image.words.resize(len, 0x1e);
        list.push("length", Plan::Lengths(image.buffers), image);
    }
}

pub fn add(list: &mut List) {
    add_alone(list);
    add_pairs(list);
    add_lengths(list);
    for _ in 0..160 {
        let image = random(&mut list.rng);
        list.push("refused", Plan::Lengths(image.buffers), image);
    }
}
