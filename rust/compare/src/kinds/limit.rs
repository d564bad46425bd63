//! Incoming numbers that bring the diagnostic limit near, over small trees of rows.
use super::{Scale, Visit};
use answers::families::limit::random;
use answers::image::image_with;
use answers::rng::Rng;

pub fn each(scale: Scale, rng: &mut Rng, visit: Visit) {
    for _ in 0..scale.of(1_500, 25_000) {
        let total = rng.range(9_980, 10_002);
        let errors = if rng.one_in(3) { rng.below(total + 1) } else { 0 };
        visit(image_with(total - errors, errors, &random(rng)));
    }
}
