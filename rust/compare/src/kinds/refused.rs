//! Images with some of the refusals 1, 2 and 4 to 8 at once, with buffers of their own. Refusal 3 takes large images.
use super::{Scale, Visit};
use answers::families::refused::{random, wrong};
use answers::rng::Rng;

pub fn each(scale: Scale, rng: &mut Rng, visit: Visit) {
    for _ in 0..scale.of(10_000, 100_000) {
        let mut image = random(rng);
        // luad's incoming diagnostics take time, and the limit has a kind of its own
        (image.warnings, image.errors) = (image.warnings % 9, image.errors % 9);
        if rng.one_in(50) {
            wrong(&mut image, 1, 0);
        }
        visit(image);
    }
}
