//! Random listings: most of them nearly right, so that many come through to a verdict.
use super::{listing, Listing};
use crate::families::valid;
use crate::image::{image_with, Image};
use crate::rng::Rng;

/// Bytes that are put into a listing: those that stand there, and others.
const BYTES: &[u8] = b"0123456789abcdef \n0123456789abcdef \nAFg+-\r\t\0\x7f\x80\xff";

/// Numbers that are put into a listing.
const NUMBERS: [&str; 12] =
    ["0", "1", "2", "00", "255", "256", "10000", "2147483648", "4294967295", "4294967296", "00000000", "ffffffff"];

/// Incoming warnings and errors.
const INCOMING: [(u32, u32); 8] = [(0, 0), (0, 0), (0, 0), (5, 0), (0, 1), (9_997, 0), (9_999, 0), (10_000, 0)];

/// An image with a few things changed that was valid before; sometimes it has about as many rows as are read.
fn random_image(rng: &mut Rng) -> Image {
    let rows = if rng.one_in(20) { rng.range(62, 66) } else { rng.range(1, 6) };
    let mut sources = valid::sources(rng, rows, 12);
    sources[0].stack += rng.pick(&[0, 0, 0, 5]);
    for _ in 0..rng.pick(&[0, 0, 1, 3, 6]) {
        if sources.iter().any(|source| !source.code.is_empty()) {
            valid::change(rng, &mut sources);
        }
    }
    let (warnings, errors) = rng.pick(&INCOMING);
    image_with(warnings, errors, &sources)
}

/// A place in a text, its end included.
fn place(rng: &mut Rng, text: &[u8]) -> usize {
    rng.below(text.len() as u32 + 1) as usize
}

/// Changes, removes or adds a byte.
fn edit_byte(rng: &mut Rng, text: &mut Vec<u8>) {
    let at = place(rng, text);
    let byte = rng.pick(BYTES);
    match rng.below(3) {
        0 => text.insert(at, byte),
        _ if at == text.len() => {}
        1 => text[at] = byte,
        _ => drop(text.remove(at)),
    }
}

/// Puts another digit in place of one.
fn edit_digit(rng: &mut Rng, text: &mut [u8]) {
    let digits: Vec<usize> = (0..text.len()).filter(|at| text[*at].is_ascii_digit()).collect();
    if !digits.is_empty() {
        let at = rng.pick(&digits);
        text[at] = rng.pick(b"0123456789");
    }
}

/// Puts a number in place of one.
fn edit_number(rng: &mut Rng, text: &mut Vec<u8>) {
    let start = place(rng, text);
    let start = text[..start].iter().rposition(u8::is_ascii_whitespace).map_or(0, |at| at + 1);
    let end = text[start..].iter().position(u8::is_ascii_whitespace).map_or(text.len(), |len| start + len);
    text.splice(start..end, rng.pick(&NUMBERS).bytes());
}

/// Removes, doubles or exchanges lines.
fn edit_lines(rng: &mut Rng, text: &mut Vec<u8>) {
    let mut lines: Vec<Vec<u8>> = text.split_inclusive(|byte| *byte == b'\n').map(<[u8]>::to_vec).collect();
    if lines.is_empty() {
        return;
    }
    let [at, other] = [0, 1].map(|_| rng.below(lines.len() as u32) as usize);
    match rng.below(3) {
        0 => drop(lines.remove(at)),
        1 => lines.insert(other, lines[at].clone()),
        _ => lines.swap(at, other),
    }
    *text = lines.concat();
}

/// Changes a text in one way.
fn edit(rng: &mut Rng, text: &mut Vec<u8>) {
    match rng.below(12) {
        0..=2 => edit_byte(rng, text),
        3..=6 => edit_digit(rng, text),
        7 | 8 => edit_number(rng, text),
        9 | 10 => edit_lines(rng, text),
        _ => text.truncate(place(rng, text)),
    }
}

/// `count` random listings, each with at most three edits.
pub fn random(seed: u64, count: usize) -> Vec<Listing> {
    let mut rng = Rng::new(seed);
    let random = |number: usize| {
        let mut text = listing(&random_image(&mut rng));
        for _ in 0..rng.pick(&[0, 0, 0, 1, 1, 2, 3]) {
            edit(&mut rng, &mut text);
        }
        (format!("random-{number}"), text)
    };
    (1..=count).map(random).collect()
}
