//! Random prototypes: words of every opcode with operands near the fields.
use super::{Scale, Visit};
use answers::families::random::sources;
use answers::image::image_with;
use answers::rng::Rng;

pub fn each(scale: Scale, rng: &mut Rng, visit: Visit) {
    for _ in 0..scale.of(40_000, 1_000_000) {
        let rows = rng.pick(&[1, 1, 2, 3, 4, 6]);
        let sources = sources(rng, rows, if rows < 3 { 14 } else { 6 });
        let warnings = if rng.one_in(10) { rng.below(4) } else { 0 };
        let errors = if rng.one_in(25) { rng.below(3) } else { 0 };
        visit(image_with(warnings, errors, &sources));
    }
}
