//! Inputs for the program packcheck, by name: stored ones, long ones and random ones.
mod cut;
mod fields;
mod judged;
mod lines;
mod long;
mod malformed;
mod order;
mod random;
mod too_long;

pub use long::long;
pub use random::random;

use crate::families::worked;
use crate::image::{fields, image, Image, Source};
use crate::word::RETURN;

/// A name and an input of packcheck, which need not be text.
pub type Listing = (String, Vec<u8>);

/// An input under a name that stands in the code.
type Named = (&'static str, Vec<u8>);

/// The listing of an image whose slices are whole u32 fields.
fn listing(image: &Image) -> Vec<u8> {
    let mut text =
        format!("warnings errors\n{} {}\ndepth words constants upvalues stack\n", image.warnings, image.errors);
    for row in fields(&image.table).chunks(5) {
        text += &(row.iter().map(u32::to_string).collect::<Vec<_>>().join(" ") + "\n");
    }
    text += "word\n";
    for word in fields(&image.words) {
        text += &format!("{word:08x}\n");
    }
    text.into_bytes()
}

fn sample() -> Vec<u8> {
    listing(&worked::sample())
}

/// The lines of the sample, each with its newline.
fn sample_lines() -> Vec<Vec<u8>> {
    sample().split_inclusive(|byte| *byte == b'\n').map(<[u8]>::to_vec).collect()
}

/// One prototype with the given code.
fn one(code: &[u32]) -> Image {
    image(&[Source::main(0, 0, 2, code)])
}

/// One row with `count` words.
fn words(count: usize) -> Vec<u8> {
    listing(&one(&vec![RETURN; count]))
}

/// `count` rows without words, each the child of the one before.
fn rows(count: usize) -> Vec<u8> {
    let row = |depth: usize| Source::main(0, 0, 2, &[]).at(depth as u32);
    listing(&image(&(0..count).map(row).collect::<Vec<_>>()))
}

/// A listing with one piece of its text changed, the first that is `from`.
fn changed_in(text: &[u8], from: &str, to: impl AsRef<[u8]>) -> Vec<u8> {
    let at = text.windows(from.len()).position(|piece| piece == from.as_bytes());
    let at = at.unwrap_or_else(|| panic!("{from:?} in {:?}", String::from_utf8_lossy(text)));
    [&text[..at], to.as_ref(), &text[at + from.len()..]].concat()
}

/// The sample with one piece of its text changed.
fn changed(from: &str, to: impl AsRef<[u8]>) -> Vec<u8> {
    changed_in(&sample(), from, to)
}

/// The worked examples, under their names of document 01.
fn worked_examples() -> Vec<Listing> {
    let mut seen = "";
    let mut listings = Vec::new();
    for (name, image) in worked::examples() {
        let second = if seen == name { "-second" } else { "" };
        listings.push((format!("{}{second}", name.to_lowercase()), listing(&image)));
        seen = name;
    }
    listings
}

/// The stored listings.
pub fn stored() -> Vec<Listing> {
    let named = [judged::judged(), order::order(), malformed::malformed(), too_long::too_long()].concat();
    let named = named.into_iter().map(|(name, text)| (name.to_string(), text));
    let mut listings = worked_examples();
    listings.extend(named);
    listings.extend([lines::lines(), fields::fields(), cut::cut()].concat());
    listings
}
