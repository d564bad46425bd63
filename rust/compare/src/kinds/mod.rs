//! The images, by kinds.
mod bits;
#[cfg(test)]
mod conditions;
mod damaged;
mod families;
mod jumps;
mod limit;
pub mod near_valid;
mod one_word;
mod random;
mod refused;
pub mod short;
mod spans;

use answers::image::Image;
use answers::rng::Rng;

/// How many images a run has.
#[derive(Debug, Clone, Copy, PartialEq, Eq)]
pub enum Scale {
    Quick,
    Full,
}

impl Scale {
    /// One of two numbers.
    fn of(self, quick: u32, full: u32) -> u32 {
        match self {
            Scale::Quick => quick,
            Scale::Full => full,
        }
    }
}

/// Takes in the images of a kind.
type Visit<'a> = &'a mut dyn FnMut(Image);

/// A kind's name, and what makes its images.
type Kind = (&'static str, fn(Scale, &mut Rng, Visit));

/// The kinds: exhaustive ones, random ones, near-valid, damaged, and those at boundaries.
pub const KINDS: [Kind; 12] = [
    ("one word", one_word::each),
    ("short", short::each),
    ("random", random::each),
    ("bits", bits::each),
    ("near-valid", near_valid::each),
    ("damaged", damaged::each),
    ("spans", spans::each),
    ("jumps", jumps::each),
    ("limit", limit::each),
    ("refused", refused::each),
    ("small families", families::small),
    ("large families", families::large),
];

/// Hands on all images with the numbers of their kinds. Each kind has chances of its own, made from the seed.
pub fn each_image(scale: Scale, seed: u64, visit: &mut dyn FnMut(usize, Image)) {
    let mut seeds = Rng::new(seed);
    for (kind, (_, each)) in KINDS.iter().enumerate() {
        each(scale, &mut Rng::new(seeds.bits()), &mut |image| visit(kind, image));
    }
}
