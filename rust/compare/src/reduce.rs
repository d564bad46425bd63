//! Makes a differing image smaller while it still differs.
use answers::image::{fields, image_with, rows, Image, Row, Source, ROW_BYTES};
use answers::refusal::image_refusal;
use std::iter::successors;
use std::time::{Duration, Instant};

/// Time for one image, after which it is left as small as it is.
const MOST_TIME: Duration = Duration::from_secs(20);

/// Words of a prototype up to which each is tried with less.
const MOST_WORDS: usize = 500;

/// The prototypes of an image that has none of the refusals 1 to 6.
fn sources(image: &Image) -> Vec<Source> {
    let words = fields(&image.words);
    let mut rest = &words[..];
    let mut source = |proto: Row| {
        let (code, after) = rest.split_at(proto.words as usize);
        rest = after;
        Source::main(proto.constants, proto.upvalues, proto.stack, code).at(proto.depth)
    };
    rows(&image.table).into_iter().map(&mut source).collect()
}

/// Smaller numbers to try for a number.
fn smaller(number: u32) -> Vec<u32> {
    let mut all = vec![0, number / 2, number.saturating_sub(1)];
    all.retain(|less| *less < number);
    all.dedup();
    all
}

/// Numbers to try for a word: without A, C, B, Bx, or a smaller opcode with the same operands.
fn smaller_words(word: u32) -> Vec<u32> {
    let mut all = [0x3f, !(0xff << 6), !(0x1ff << 14), !(0x1ff << 23), !0x3f].map(|mask| word & mask).to_vec();
    all.push(0);
    all.retain(|less| *less < word);
    all
}

/// Half of a number, a quarter, down to 1.
fn halves(number: usize) -> impl Iterator<Item = usize> {
    let some = |half: usize| Some(half).filter(|half| *half > 0);
    successors(some(number.div_ceil(2)), move |half| some(half / 2))
}

/// The rows below a row.
fn below(sources: &[Source], row: usize) -> usize {
    sources[row + 1..].iter().take_while(|source| source.depth > sources[row].depth).count()
}

/// A row and those below it, as an image of their own.
fn alone(sources: &[Source], row: usize) -> Vec<Source> {
    let kept = &sources[row..=row + below(sources, row)];
    kept.iter().map(|source| source.clone().at(source.depth - sources[row].depth)).collect()
}

/// The prototypes without some of the last rows, without one row and those below it, and only these.
fn without_rows(sources: &[Source]) -> impl Iterator<Item = Vec<Source>> + '_ {
    let without = |row: usize| [&sources[..row], &sources[row + 1 + below(sources, row)..]].concat();
    let cut = halves(sources.len() - 1).map(|less| sources[..sources.len() - less].to_vec());
    cut.chain((1..sources.len()).flat_map(move |row| [without(row), alone(sources, row)]))
}

/// The prototypes with one of them changed.
fn with(sources: &[Source], row: usize, changed: Source) -> Vec<Source> {
    let mut all = sources.to_vec();
    all[row] = changed;
    all
}

/// A prototype without some words: half of them, a quarter, down to one.
fn fewer_words(source: &Source) -> impl Iterator<Item = Source> + '_ {
    let count = source.code.len();
    let without = move |start: usize, len: usize| Source {
        code: [&source.code[..start], &source.code[(start + len).min(count)..]].concat(),
        ..source.clone()
    };
    halves(count).flat_map(move |len| (0..count).step_by(len).map(move |start| without(start, len)))
}

/// A prototype with one field or one word smaller.
fn less(source: &Source) -> Vec<Source> {
    let mut all = Vec::new();
    let mut push = |change: &dyn Fn(&mut Source)| {
        let mut less = source.clone();
        change(&mut less);
        all.push(less);
    };
    smaller(source.constants).iter().for_each(|n| push(&|source| source.constants = *n));
    smaller(source.upvalues).iter().for_each(|n| push(&|source| source.upvalues = *n));
    smaller(source.stack).iter().for_each(|n| push(&|source| source.stack = *n));
    if source.code.len() <= MOST_WORDS {
        for (pc, word) in source.code.iter().enumerate() {
            smaller_words(*word).iter().for_each(|n| push(&|source| source.code[pc] = *n));
        }
    }
    all
}

/// Smaller prototypes to try.
fn smaller_sources(sources: &[Source]) -> impl Iterator<Item = Vec<Source>> + '_ {
    let each = || sources.iter().enumerate();
    let fewer = each().flat_map(move |(row, source)| fewer_words(source).map(move |less| with(sources, row, less)));
    let less = each().flat_map(move |(row, source)| less(source).into_iter().map(move |less| with(sources, row, less)));
    without_rows(sources).chain(fewer).chain(less)
}

/// Smaller images out of one that has a refusal: less of a slice, or one field 0.
fn smaller_slices(image: &Image) -> Vec<Image> {
    let mut all = Vec::new();
    for less in [ROW_BYTES, 4, 1] {
        for (rows, words) in [(less, 0), (0, less)] {
            let mut cut = image.clone();
            cut.table.truncate(cut.table.len().saturating_sub(rows));
            cut.words.truncate(cut.words.len().saturating_sub(words));
            all.push(cut);
        }
    }
    for at in (0..image.table.len() / 4 * 4).step_by(4) {
        let mut zero = image.clone();
        zero.table[at..at + 4].fill(0);
        all.push(zero);
    }
    all.retain(|less| less != image);
    all
}

/// The same image with fewer incoming diagnostics.
fn fewer_incoming(image: &Image) -> Vec<Image> {
    let warnings = smaller(image.warnings).into_iter().map(|warnings| Image { warnings, ..image.clone() });
    let errors = smaller(image.errors).into_iter().map(|errors| Image { errors, ..image.clone() });
    warnings.chain(errors).collect()
}

/// The first smaller image that still differs.
fn step(image: &Image, differs: &mut dyn FnMut(&Image) -> bool) -> Option<Image> {
    let mut first = fewer_incoming(image).into_iter();
    if let Some(less) = first.find(|less| differs(less)) {
        return Some(less);
    }
    if image_refusal(&image.table, &image.words).is_some() {
        return smaller_slices(image).into_iter().find(|less| differs(less));
    }
    let sources = sources(image);
    let made = |less: Vec<Source>| Image {
        label: image.label.clone(),
        buffers: image.buffers,
        ..image_with(image.warnings, image.errors, &less)
    };
    let found = smaller_sources(&sources).map(made).find(|less| differs(less));
    found
}

/// The image, made smaller by steps as long as one of them still differs and there is time.
pub fn reduce(mut image: Image, differs: &mut dyn FnMut(&Image) -> bool) -> Image {
    let start = Instant::now();
    let mut in_time = |less: &Image| start.elapsed() < MOST_TIME && differs(less);
    while let Some(less) = step(&image, &mut in_time) {
        image = less;
    }
    image
}

#[cfg(test)]
mod tests {
    use super::*;
    use answers::image::image;
    use answers::rng::Rng;

    #[test]
    fn prototypes_are_read_back() {
        let mut rng = Rng::new(1);
        for _ in 0..50 {
            let made = answers::families::random::sources(&mut rng, 4, 6);
            assert_eq!(sources(&image(&made)), made);
        }
    }

    #[test]
    fn what_matters_is_kept() {
        let made = answers::families::random::sources(&mut Rng::new(2), 4, 6);
        let mut large = image(&made);
        large.warnings = 77;
        large.words[20..24].copy_from_slice(&[63, 1, 2, 3]);
        let bad = |image: &Image| fields(&image.words).iter().any(|word| word & 0x3f == 63);
        assert!(bad(&large));
        let small = reduce(large, &mut |image| bad(image));
        assert_eq!((small.warnings, fields(&small.words), fields(&small.table)), (0, vec![63], vec![0, 1, 0, 0, 0]));
    }

    #[test]
    fn a_refused_image_stays_refused() {
        let large = Image { table: vec![1; 43], words: vec![9; 17], ..Image::default() };
        let small = reduce(large, &mut |image| image.table.len() % ROW_BYTES != 0);
        assert_eq!((small.table.len(), small.words.len()), (1, 0));
    }
}
