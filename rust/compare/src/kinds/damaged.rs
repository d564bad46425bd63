//! Valid images of several nested prototypes, with flipped bits in words and fields.
use super::{Scale, Visit};
use answers::families::valid;
use answers::image::{image, Image, ROW_BYTES};
use answers::rng::Rng;

/// Flips a bit of a word, if there is one.
fn flip_word(rng: &mut Rng, image: &mut Image) {
    if !image.words.is_empty() {
        let at = rng.below(image.words.len() as u32) as usize;
        image.words[at] ^= 1 << rng.below(8);
    }
}

/// Flips a bit of a field: of depths and words seldom, as most images are then refused, and of constants mostly a low
/// one or the highest, as luad is slow with many of them.
fn flip_field(rng: &mut Rng, image: &mut Image) {
    let row = rng.below((image.table.len() / ROW_BYTES) as u32) as usize;
    let field = rng.pick(&[0, 1, 2, 2, 3, 3, 3, 4, 4, 4]);
    let bit = match field {
        2 if !rng.one_in(200) => rng.pick(&[0, 1, 2, 3, 8, 31]),
        3 | 4 if !rng.one_in(8) => rng.below(8),
        _ => rng.below(32),
    };
    image.table[ROW_BYTES * row + 4 * field + bit as usize / 8] ^= 1 << (bit % 8);
}

pub fn each(scale: Scale, rng: &mut Rng, visit: Visit) {
    for _ in 0..scale.of(40_000, 1_500_000) {
        let rows = rng.range(1, 8);
        let mut image = image(&valid::sources(rng, rows, 8));
        for _ in 0..rng.range(1, 6) {
            if rng.one_in(5) {
                flip_field(rng, &mut image);
            } else {
                flip_word(rng, &mut image);
            }
        }
        visit(image);
    }
}
