//! Large images: deep and wide tables, long codes, the diagnostic limit reached from nothing, refusal 3.
use super::refused;
use super::{random, valid};
use crate::image::{image, image_with, Image, Source};
use crate::limits::{MAX_ROWS, MAX_WORDS};
use crate::list::{List, Plan};
use crate::word::{abc, abx, bind_register, bind_upvalue, closure, jump, op, setlist_long, RETURN};

const EXACT: Plan = Plan::Near([0; 3]);
/// A word with one diagnostic.
const BAD: u32 = 63;

fn main(code: &[u32]) -> Source {
    Source::main(0, 0, 2, code)
}

/// The same rows `count` times.
fn times(sources: &[Source], count: usize) -> Vec<Source> {
    sources.iter().cycle().take(sources.len() * count).cloned().collect()
}

/// A chain of `rows` rows, each with the same code.
fn chain(rows: u32, upvalues: u32, code: &[u32]) -> Vec<Source> {
    (0..rows).map(|depth| Source::main(0, upvalues, 2, code).at(depth)).collect()
}

/// A main row with the given code, and `children` children.
fn fan(code: &[u32], child: &Source, children: usize) -> Vec<Source> {
    let mut sources = vec![main(code)];
    sources.extend(times(&[child.clone().at(1)], children));
    sources
}

/// Depth 199 and 200, and nests that come back up.
fn add_deep(list: &mut List) {
    let bound = [closure(0, 0), bind_register(1), RETURN];
    list.push("deep", EXACT, image(&chain(200, 1, &bound)));
    list.push("deep", EXACT, image(&chain(201, 1, &bound)));
    list.push("deep", EXACT, image(&chain(200, 0, &[])));
    list.push("deep", EXACT, image(&chain(200, 2, &[bind_upvalue(0), closure(0, 0), bind_upvalue(1)])));
    let mut last_bad = chain(200, 0, &[RETURN]);
    last_bad[199].code[0] = BAD;
    list.push("deep", Plan::Near([0, 0, -1]), image(&last_bad));
    let mut comb = vec![main(&[closure(0, 0), closure(0, 1), closure(0, 80)])];
    comb.extend(times(&chain(200, 1, &[closure(0, 0), bind_register(0)])[1..], 81));
    list.push("deep", EXACT, image(&comb));
    let mut over = comb.clone();
    over.push(Source::main(0, 0, 2, &[]).at(200));
    list.push("deep", EXACT, image(&over));
    let stairs: Vec<Source> = (0..200)
        .flat_map(|depth| [Source::main(0, 0, 251, &[]).at(depth), Source::main(0, 0, 2, &[BAD]).at(depth + 1)])
        .take(399)
        .collect();
    list.push("deep", EXACT, image(&stairs));
}

/// Many children beside each other, up to the limit of rows and over it.
fn add_wide(list: &mut List) {
    let child = Source::main(0, 1, 2, &[RETURN]);
    let code = [closure(0, 0), bind_register(0), closure(0, 16_382), bind_register(1), closure(1, 16_383), RETURN];
    list.push("wide", EXACT, image(&fan(&code, &child, MAX_ROWS - 1)));
    list.push("wide", Plan::Near([0, -1, 0]), image(&fan(&code, &child, MAX_ROWS - 1)));
    list.push("wide", EXACT, image(&fan(&code, &child, MAX_ROWS)));
    list.push("wide", EXACT, image(&fan(&[closure(0, 299), bind_register(0)], &child, 300)));
    list.push("wide", EXACT, image(&fan(&[], &Source::main(0, 255, 2, &[]), MAX_ROWS - 1)));
    list.push("wide", Plan::Near([0, -12, 0]), image(&fan(&[], &Source::main(0, 255, 2, &[]), MAX_ROWS - 1)));
    list.push("wide", EXACT, image(&fan(&[], &Source::main(0, 0, 251, &[]), 9_998)));
    for children in [9_999, 10_000, 10_001, MAX_ROWS - 1] {
        list.push("wide", EXACT, image(&fan(&[], &Source::main(0, 0, 251, &[]), children)));
    }
    list.push("wide", EXACT, image(&fan(&[RETURN], &main(&[BAD]), MAX_ROWS - 1)));
    let mut last_bad = fan(&[RETURN], &main(&[RETURN]), MAX_ROWS - 1);
    last_bad[MAX_ROWS - 1].code[0] = BAD;
    list.push("wide", EXACT, image(&last_bad));
    last_bad[MAX_ROWS - 1].depth = 3;
    list.push("wide", EXACT, image(&last_bad));
    last_bad[MAX_ROWS - 1].depth = 1;
    last_bad[MAX_ROWS - 1].stack = 256;
    list.push("wide", EXACT, image(&last_bad));
}

/// Codes up to the limit of words and over it.
fn add_long(list: &mut List) {
    let fill = |words: usize| vec![RETURN; words];
    list.push("long", EXACT, image(&[main(&fill(MAX_WORDS))]));
    list.push("long", Plan::Near([-1, 0, 0]), image(&[main(&fill(MAX_WORDS))]));
    list.push("long", EXACT, image(&[main(&fill(MAX_WORDS + 1))]));
    list.push("long", EXACT, image(&[main(&fill(MAX_WORDS - 1)), main(&[BAD]).at(1)]));
    let setlists = [setlist_long(0, 1), 0].repeat(MAX_WORDS / 2);
    list.push("long", EXACT, image(&[main(&setlists)]));
    let closures = [closure(0, 0), bind_register(0), bind_register(1), jump(op::JMP, 0, 0, 0)].repeat(MAX_WORDS / 8);
    list.push("long", EXACT, image(&[main(&closures), Source::main(0, 2, 2, &fill(MAX_WORDS / 2)).at(1)]));
    let jumps = [jump(op::JMP, 0, 0, 131_073), jump(op::JMP, 0, 1, 131_073), RETURN];
    list.push("long", EXACT, image(&[main(&[&jumps[..], &fill(131_071)].concat())]));
    list.push("long", EXACT, image(&[main(&[&jumps[..], &fill(131_070)].concat())]));
    let mut back = fill(131_072);
    back.extend([abx(op::JMP, 0, 0), abx(op::JMP, 0, 262_143)]);
    list.push("long", EXACT, image(&[main(&back)]));
    let loads = [abx(op::LOADK, 0, 262_143), abx(op::LOADK, 0, 262_142)].repeat(50);
    list.push(
        "long",
        EXACT,
        image(&[Source::main(2_147_483_647, 0, 2, &loads), Source::main(262_143, 0, 2, &loads).at(1)]),
    );
}

/// As many rows and words as there can be, and one word more or less than the rows state.
fn add_full(list: &mut List) {
    let full = image(&fan(&[RETURN; 64], &main(&[BAD; 64]), MAX_ROWS - 1));
    list.push("long", EXACT, full.clone());
    list.push("long", Plan::Near([0, 0, -1]), full.clone());
    list.push("long", Plan::Near([-1, 0, -1]), full.clone());
    let mut fewer = full.clone();
    fewer.words.truncate(4 * MAX_WORDS - 4);
    list.push("long", EXACT, fewer);
    let mut cut = full;
    cut.words.truncate(4 * MAX_WORDS - 1);
    list.push("long", EXACT, cut);
}

/// `bad` words with one diagnostic each, then the given code; one child of 255 upvalues.
fn after(bad: usize, code: &[u32]) -> Image {
    let code = [&vec![BAD; bad], code].concat();
    image(&[main(&code), Source::main(0, 255, 251, &[BAD]).at(1), Source::main(0, 0, 2, &[BAD]).at(1)])
}

/// The limit reached by diagnostics alone, up to the most there can be.
fn add_limit(list: &mut List) {
    let mut most = vec![closure(2, 0)];
    most.extend([BAD; 255]);
    for bad in [9_997, 9_998, 9_999, 10_000, 10_001] {
        list.push("most", EXACT, after(bad, &most));
        list.push("most", EXACT, after(bad, &[RETURN]));
    }
    list.push("most", Plan::Near([0, 0, -1]), after(9_999, &most));
    list.push("most", Plan::Near([0, 0, -16]), after(9_999, &most));
    list.push("most", Plan::Near([0, 0, 1]), after(9_999, &[&most[..], &[RETURN, BAD]].concat()));
    list.push("most", EXACT, after(9_998, &most[..255]));
    list.push("most", EXACT, after(9_998, &most[..200]));
    list.push("most", EXACT, after(0, &most));
    let two = vec![abc(op::CALL, 0, 5, 5); 6_000];
    list.push("most", EXACT, image_with(1, 0, &[main(&two)]));
    list.push("most", EXACT, image(&[main(&two)]));
    let three = vec![abc(op::ADD, 9, 9, 9); 4_000];
    list.push("most", EXACT, image(&[main(&three)]));
    list.push("most", EXACT, image_with(5_000, 0, &[main(&three), main(&three).at(1)]));
    list.push("most", EXACT, image(&fan(&[closure(0, 0)], &Source::main(0, 1, 251, &[closure(0, 0)]), 6_000)));
}

/// A CLOSURE of a child of 255 upvalues, and its binding words.
fn bind_whole(child: u32) -> Vec<u32> {
    let bind = |j: u32| if j % 2 == 0 { bind_register(j + 200) } else { bind_upvalue(j) };
    std::iter::once(closure(0, child)).chain((0..255).map(bind)).collect()
}

/// A child of 255 upvalues, bound whole, twice, and with its last word missing.
fn add_bound(list: &mut List) {
    let once = bind_whole(0);
    let child = Source::main(0, 255, 2, &[RETURN]).at(1);
    for (code, stack) in
        [(&once[..], 255), (&once[..255], 255), (&once[..], 254), (&[&once[..], &once[..100]].concat()[..], 250)]
    {
        list.push("bound", EXACT, image(&[Source::main(0, 255, stack, code), child.clone()]));
    }
}

/// Random and valid images of some hundred words.
fn add_random(list: &mut List) {
    for _ in 0..6 {
        let rows = list.rng.range(12, 40);
        let sources = random::sources(&mut list.rng, rows, 30);
        list.add("random-large", image(&sources));
        let rows = list.rng.range(12, 60);
        let sources = valid::sources(&mut list.rng, rows, 20);
        let answer = list.push("valid-large", EXACT, image(&sources)).expect("an image without refusals 1 to 6");
        assert!(answer.diagnostics.is_empty());
    }
}

/// Refusal 3 alone and with others: too many rows, or too many bytes of words.
fn add_too_large(list: &mut List) {
    let rows = image(&fan(&[], &main(&[]), MAX_ROWS));
    let mut bytes = refused::base();
    bytes.words.resize(4 * MAX_WORDS + 4, 0);
    let mut odd = refused::base();
    odd.words.resize(4 * MAX_WORDS + 1, 0);
    let mut both = rows.clone();
    both.words = bytes.words.clone();
    for image in [&rows, &bytes, &odd, &both] {
        list.push("too-large", EXACT, image.clone());
        for refusal in [1, 2, 4, 5, 7, 8] {
            let mut image = image.clone();
            refused::wrong(&mut image, refusal, 0);
            list.push("too-large", Plan::Lengths(image.buffers), image);
        }
    }
    let mut full = refused::base();
    full.words.resize(4 * MAX_WORDS, 0);
    list.push("too-large", EXACT, full);
}

/// Bindings with more than 65,535 records before them: of rows before the parent, or between it and the child.
fn add_far(list: &mut List) {
    let other = Source::main(0, 255, 2, &[]);
    let falling = [16_382, 300, 0].map(bind_whole).concat();
    list.push("far", EXACT, image(&fan(&falling, &other, MAX_ROWS - 1)));
    let mut behind = fan(&[], &other, 300);
    behind.extend([Source::main(0, 255, 2, &bind_whole(0)).at(1), other.clone().at(2)]);
    list.push("far", EXACT, image(&behind));
    let mut nest = vec![main(&[bind_whole(1), bind_whole(0), bind_whole(2)].concat()), other.clone().at(1)];
    nest.extend(times(&[other.clone().at(2), other.clone().at(3)], 150));
    nest.extend(times(&[other.at(1)], 2));
    list.push("far", EXACT, image(&nest));
}

/// As many rows as there can be, as deep as they can be: a chain, and under its end all others, the last one named.
fn add_deep_and_wide(list: &mut List) {
    let children = MAX_ROWS as u32 - 199;
    let mut sources = chain(199, 0, &[RETURN]);
    sources[198].code = vec![closure(0, children - 1), closure(0, children), RETURN];
    sources.extend(times(&[main(&[RETURN]).at(199)], children as usize));
    sources[MAX_ROWS - 1].code[0] = BAD;
    sources[MAX_ROWS - 1].stack = 251;
    list.push("deep", EXACT, image(&sources));
}

pub fn add(list: &mut List) {
    add_deep(list);
    add_wide(list);
    add_long(list);
    add_full(list);
    add_limit(list);
    add_bound(list);
    add_random(list);
    add_too_large(list);
    add_far(list);
    add_deep_and_wide(list);
}
