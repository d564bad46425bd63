//! Random executions of images that the archive finds valid, and planted violations.
//!
//! An execution of a prototype of a valid image meets only executable words of known opcodes with their operands inside,
//! and leaves only as document 01 allows. What an execution is, the archive does not say: it is transcribed from document
//! 01 in `answers::execution`.
mod checker;
mod images;
mod plants;
mod repair;
mod run;
mod sharpness;
mod tally;

pub use run::run;
pub use sharpness::run as sharpness;

use answers::execution::{Choice, Prototype};
use answers::rng::Rng;
use answers::runs::random_choices;

/// Choices of a list at most.
const MOST_CHOICES: u32 = 2_000;

/// A list of choices for a prototype: as short as the stored ones, or as long as its code takes.
fn choices(rng: &mut Rng, prototype: &Prototype) -> Vec<Choice> {
    let long = (4 * prototype.words.len() as u32).clamp(40, MOST_CHOICES);
    let most = rng.pick(&[10, 40, 40, long]);
    let len = rng.range(0, most);
    random_choices(rng, len)
}
