//! Long inputs, which are made anew and not stored.
use super::{changed_in, listing, one, rows, sample, sample_lines, words, Listing, Named};
use crate::image::{image_with, Image, Source};
use crate::packcheck::{MOST_ROWS, MOST_WORDS};
use crate::rng::Rng;
use crate::word::{abc, op, RETURN};

const MEGABYTE: usize = 1 << 20;

/// Bytes that a program would read at once.
const BUFFER: usize = 65_536;

/// The greatest u32.
const MOST: &str = "4294967295";

/// The bytes that stand in listings.
const LISTING_BYTES: &[u8] = b"0123456789abcdef \n";

/// A megabyte of random bytes.
fn noise(seed: u64) -> Vec<u8> {
    let mut rng = Rng::new(seed);
    (0..MEGABYTE).map(|_| rng.bits() as u8).collect()
}

/// A megabyte of random bytes out of those that stand in listings.
fn near_noise(seed: u64) -> Vec<u8> {
    let mut rng = Rng::new(seed);
    (0..MEGABYTE).map(|_| rng.pick(LISTING_BYTES)).collect()
}

/// The first lines of the sample.
fn head(lines: usize) -> Vec<u8> {
    sample_lines()[..lines].concat()
}

fn noises() -> Vec<Named> {
    vec![
        ("noise", noise(1)),
        ("noise-near", near_noise(2)),
        ("noise-after-1", [head(1), near_noise(3)].concat()),
        ("noise-after-head", [head(3), noise(4)].concat()),
        ("noise-near-after-head", [head(3), near_noise(5)].concat()),
        ("noise-after-rows", changed_in(&rows(MOST_ROWS), "word\n", noise(6))),
        ("noise-after-row", [head(4), near_noise(7)].concat()),
        ("noise-after-names", [head(5), near_noise(8)].concat()),
        ("noise-after-words", [words(MOST_WORDS), noise(9)].concat()),
        ("noise-near-after-words", [words(MOST_WORDS), near_noise(10)].concat()),
    ]
}

/// Inputs in which one thing is a megabyte long.
fn megabytes() -> Vec<Named> {
    let after = |lines: usize, byte: u8| [head(lines), vec![byte; MEGABYTE]].concat();
    vec![
        ("line", vec![b'w'; MEGABYTE]),
        ("nuls", vec![0; MEGABYTE]),
        ("newlines", vec![b'\n'; MEGABYTE]),
        ("zeros-after-1", after(1, b'0')),
        ("ones-after-1", after(1, b'1')),
        ("spaces-after-1", after(1, b' ')),
        ("ones-after-3", after(3, b'1')),
        ("newlines-after-3", after(3, b'\n')),
        ("zeros-after-5", after(5, b'0')),
        ("newlines-after-7", after(7, b'\n')),
        ("words-megabyte", [head(5), b"0080001e\n".repeat(MEGABYTE / 9)].concat()),
        ("words-megabyte-cut", [head(5), b"0080001e\n".repeat(MEGABYTE / 9), b"0080001".to_vec()].concat()),
        ("rows-million", [head(3), b"1 0 0 0 2\n".repeat(1_000_000)].concat()),
        ("samples", sample().repeat(MEGABYTE / sample().len())),
    ]
}

/// The longest listing that is refused by neither 9 nor 10.
fn longest_read() -> Vec<u8> {
    let mut text = format!("warnings errors\n{MOST} {MOST}\ndepth words constants upvalues stack\n");
    text += &format!("{MOST} {MOST} {MOST} {MOST} {MOST}\n").repeat(MOST_ROWS);
    text += "word\n";
    text += &"ffffffff\n".repeat(MOST_WORDS);
    text.into_bytes()
}

/// An image of 64 rows and 2,048 words, each the given one.
fn most(warnings: u32, word: u32) -> Image {
    let code = vec![word; MOST_WORDS / MOST_ROWS];
    let row = |row: u32| Source::main(2_147_483_647, 255, 250, &code).at(row);
    image_with(warnings, 0, &(0..MOST_ROWS as u32).map(row).collect::<Vec<_>>())
}

/// The longest listings, and the same with a little more or less.
fn longest() -> Vec<Named> {
    let longest = longest_read();
    let more = |bytes: &[u8]| [&longest, bytes].concat();
    vec![
        ("longest", longest.clone()),
        ("longest-cut", longest[..longest.len() - 1].to_vec()),
        ("longest-newline-more", more(b"\n")),
        ("longest-digit-more", more(b"0")),
        ("longest-word-more", more(b"0080001e\n")),
        ("longest-word-more-cut", more(b"0080001e")),
        ("longest-digit-in-words", changed_in(&longest, "\nffffffff\n", "\nfffffffff\n")),
        ("most", listing(&most(0, RETURN))),
        ("most-incoming", listing(&most(u32::MAX, RETURN))),
        ("most-diagnostics", listing(&most(0, 63))),
    ]
}

/// Incoming warnings, then more diagnostics than there is room for: the limit on both together can end the walk before.
fn limit(warnings: u32) -> Vec<u8> {
    let code = [abc(op::SELF, 0, 0, 256); MOST_WORDS];
    listing(&image_with(warnings, 0, &[Source::main(0, 0, 0, &code)]))
}

/// Refusals of listings with very many words.
fn refused() -> Vec<Named> {
    let two = listing(&one(&[abc(op::CALL, 0, 5, 5); MOST_WORDS]));
    vec![
        ("diagnostics-8192", limit(0)),
        ("diagnostics-limit-2052", limit(10_000 - 2_049)),
        ("diagnostics-limit-2048", limit(10_000 - 2_048)),
        ("diagnostics-limit-2044", limit(10_000 - 2_044)),
        ("order-6-before-8", changed_in(&two, "0 2048 0 0 2", "0 2047 0 0 2")),
        ("order-10-before-5", changed_in(&words(MOST_WORDS + 1), " 0 0 2\n", " 0 0 256\n")),
        ("order-10-before-6", changed_in(&words(MOST_WORDS + 1), "0 2049 ", "0 2048 ")),
        ("order-9-before-10", changed_in(&words(MOST_WORDS + 1), "0080001e", "0080001E")),
    ]
}

/// A text with its last byte repeated until it has `len` bytes.
fn filled(mut text: Vec<u8>, len: usize) -> Vec<u8> {
    let last = text[text.len() - 1];
    text.resize(len, last);
    text
}

/// Inputs whose first bad line ends, or is cut, near the byte where a buffer is full.
fn around_the_buffer() -> Vec<Listing> {
    let starts = [
        ("names", b"w".to_vec()),
        ("incoming", [&head(1)[..], b"0 0"].concat()),
        ("row", [&head(3)[..], b"0 2 1 0 2"].concat()),
        ("word", [&head(5)[..], b"0080001e"].concat()),
        ("longest", [&longest_read()[..], b"0"].concat()),
    ];
    let mut listings = Vec::new();
    for (name, start) in starts {
        for len in BUFFER - 1..=BUFFER + 1 {
            let cut = filled(start.clone(), len);
            let ended = [&cut[..len - 1], b"\n"].concat();
            listings.push((format!("buffer-{name}-cut-{len}"), cut));
            listings.push((format!("buffer-{name}-ended-{len}"), ended.clone()));
            listings.push((format!("buffer-{name}-sample-{len}"), [ended, sample()].concat()));
        }
        for before in 1..9 {
            let ended = [filled(start.clone(), BUFFER - before - 1), b"\n".to_vec()].concat();
            listings.push((format!("buffer-{name}-word-at-{}", BUFFER - before), [&ended[..], b"0080001e\n"].concat()));
        }
    }
    listings
}

/// Listings that are read whole, if they are read from the end of the buffer on.
fn behind_the_buffer() -> Vec<Named> {
    vec![
        ("behind-newlines", [vec![b'\n'; BUFFER], sample()].concat()),
        ("behind-nuls", [vec![0; BUFFER], sample()].concat()),
        ("behind-words", [filled_with_words(), sample()].concat()),
    ]
}

/// Words up to the end of the buffer, the last of them cut.
fn filled_with_words() -> Vec<u8> {
    let mut text = words(BUFFER / 9);
    text.truncate(BUFFER);
    text
}

/// The long inputs.
pub fn long() -> Vec<Listing> {
    let named = [noises(), megabytes(), longest(), refused(), behind_the_buffer()].concat();
    let mut listings: Vec<Listing> = named.into_iter().map(|(name, text)| (name.to_string(), text)).collect();
    listings.extend(around_the_buffer());
    listings
}
