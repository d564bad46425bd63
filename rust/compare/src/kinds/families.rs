//! The families of tests/answers, from other seeds.
use super::{Scale, Visit};
use answers::calls::Calls;
use answers::families;
use answers::image::Image;
use answers::rng::Rng;

/// A list of families from a seed.
type List = fn(u64, &mut dyn FnMut(&Image, &Calls));

fn each(list: List, seeds: u32, rng: &mut Rng, visit: Visit) {
    for _ in 0..seeds {
        list(rng.bits(), &mut |image, _| visit(image.clone()));
    }
}

pub fn small(scale: Scale, rng: &mut Rng, visit: Visit) {
    each(families::small, scale.of(1, 5), rng, visit);
}

pub fn large(scale: Scale, rng: &mut Rng, visit: Visit) {
    each(families::large, scale.of(1, 2), rng, visit);
}
