//! The images whose executions are made, by kinds. Which of them are valid, the archive says.
use super::repair::repaired;
use crate::kinds::{near_valid, short};
use answers::families::{random, valid};
use answers::image::{image, Image, Source};
use answers::rng::Rng;
use answers::runs::random_prototype;
use answers::text::read_images;

/// A kind's name, and what makes an image of it.
type Kind = (&'static str, fn(&mut Rng) -> Image);

/// The kinds besides the compiled scripts.
pub const KINDS: [Kind; 5] = [
    ("made valid", made_valid),
    ("repaired", repaired_random),
    ("repaired, mostly jumps", repaired_jumps),
    ("valid, then changed", near_valid::one),
    ("short", short),
];

/// The images of compiled scripts.
pub fn scripts() -> Vec<Image> {
    read_images(include_str!("../../../../tests/lua/images.txt")).collect()
}

fn made_valid(rng: &mut Rng) -> Image {
    let rows = rng.pick(&[1, 1, 2, 3, 5]);
    let words = rng.pick(&[4, 12, 12, 40]);
    let mut image = image(&valid::sources(rng, rows, words));
    // fewer incoming warnings than the limit do not change what is valid
    image.warnings = rng.pick(&[0, 0, 0, 1, 9]);
    image
}

fn repaired_random(rng: &mut Rng) -> Image {
    let rows = rng.pick(&[1, 1, 2, 3, 4]);
    let sources = random::sources(rng, rows, 14);
    image(&repaired(rng, sources))
}

/// A prototype that is mostly jumps, skips and owners, and its children, which are of the same kind.
fn repaired_jumps(rng: &mut Rng) -> Image {
    let main = random_prototype(rng, 14);
    let mut sources = vec![Source::main(main.constants, main.upvalues, main.stack, &main.words)];
    for upvalues in main.children {
        let child = random_prototype(rng, 6);
        sources.push(Source::main(child.constants, upvalues, child.stack, &child.words).at(1));
    }
    image(&repaired(rng, sources))
}

/// A code of one to five words of few, under few figures.
fn short(rng: &mut Rng) -> Image {
    let ([constants, upvalues, stack], child) = rng.pick(&short::limits());
    let words = rng.range(1, 5);
    let code: Vec<u32> = (0..words).map(|_| rng.pick(&short::alphabet())).collect();
    let mut sources = vec![Source::main(constants, upvalues, stack, &code)];
    sources.extend(child.map(|upvalues| Source::main(0, upvalues, 2, &[]).at(1)));
    image(&sources)
}
