//! Words of random bits under random fields; now and then a field or the length of a slice is any number.
use super::{Scale, Visit};
use answers::families::random::{depths, sources};
use answers::families::refused::set;
use answers::image::{image, Image, Source, ROW_BYTES};
use answers::rng::Rng;

/// Rows of random fields within their limits, with words of random bits.
fn any(rng: &mut Rng) -> Vec<Source> {
    let rows = rng.range(1, 5);
    let mut all = Vec::new();
    for depth in depths(rng, rows) {
        let words = rng.below(8);
        let code: Vec<u32> = (0..words).map(|_| rng.bits() as u32).collect();
        let upvalues = if rng.one_in(8) { rng.below(256) } else { rng.below(4) };
        all.push(Source::main(rng.below(300), upvalues, rng.below(256), &code).at(depth));
    }
    all
}

/// Words of random bits under the fields of `random`, opcodes kept in half of them.
fn filled(rng: &mut Rng) -> Vec<Source> {
    let rows = rng.range(1, 3);
    let mut all = sources(rng, rows, 10);
    for word in all.iter_mut().flat_map(|source| &mut source.code) {
        let kept = if rng.one_in(2) { *word & 0x3f } else { rng.bits() as u32 & 0x3f };
        *word = rng.bits() as u32 & !0x3f | kept;
    }
    all
}

/// Makes one field any number, or one slice longer or shorter.
fn break_one(rng: &mut Rng, image: &mut Image) {
    let row = rng.below((image.table.len() / ROW_BYTES) as u32) as usize;
    let (table, words) = (image.table.len() as u32, image.words.len() as u32);
    match rng.below(4) {
        0 | 1 => {
            // constants below the limit make luad slow, so most are above it
            let field = rng.below(5) as usize;
            let over = field == 2 && !rng.one_in(200);
            set(image, row, field, rng.bits() as u32 >> rng.below(32) | u32::from(over) << 31);
        }
        2 => image.table.resize(rng.below(table + 21) as usize, 0),
        _ => image.words.resize(rng.below(words + 9) as usize, 0),
    }
}

pub fn each(scale: Scale, rng: &mut Rng, visit: Visit) {
    for _ in 0..scale.of(20_000, 600_000) {
        let sources = if rng.one_in(2) { any(rng) } else { filled(rng) };
        let mut image = image(&sources);
        if rng.one_in(8) {
            break_one(rng, &mut image);
        }
        visit(image);
    }
}
