//! The refusals 1 to 8 that a listing can bring about, each with its figure, and listings that are accepted.
use super::{changed, changed_in, listing, one, rows, sample, Named};
use crate::image::{image, image_with, Image, Source};
use crate::packcheck::MOST_ROWS;
use crate::word::{abc, abx, asbx, bind_register, closure, op, setlist_long, RETURN};

/// The sample with more rows after its own.
fn with_rows(rows: &str) -> Vec<u8> {
    changed("0 2 1 0 2\n", format!("0 2 1 0 2\n{rows}"))
}

/// The sample with another row.
fn with_row(row: &str) -> Vec<u8> {
    changed("0 2 1 0 2\n", format!("{row}\n"))
}

/// 64 rows, with the last one replaced.
fn with_last(row: &str) -> Vec<u8> {
    changed_in(&rows(MOST_ROWS), "\n63 0 0 0 2\n", format!("\n{row}\n"))
}

/// Refusals 1 and 4, and depths that are right.
fn depths() -> Vec<Named> {
    vec![
        ("no-rows-no-words", b"warnings errors\n0 0\ndepth words constants upvalues stack\nword\n".to_vec()),
        ("depth", with_rows("1 0 0 0 2\n0 0 0 0 2\n")),
        ("depth-first", with_row("1 2 1 0 2")),
        ("depth-jump", with_rows("2 0 0 0 2\n")),
        ("depth-jump-later", with_rows("1 0 0 0 2\n2 0 0 0 2\n1 0 0 0 2\n3 0 0 0 2\n")),
        ("depth-twice", with_rows("1 0 0 0 2\n3 0 0 0 2\n5 0 0 0 2\n")),
        ("depth-200", with_rows("200 0 0 0 2\n")),
        ("depth-wraps", with_rows("4294967295 0 0 0 2\n0 0 0 0 2\n")),
        ("depth-last", with_last("64 0 0 0 2")),
        ("depth-last-0", with_last("0 0 0 0 2")),
        ("depth-back", with_rows("1 0 0 0 2\n2 0 0 0 2\n1 0 0 0 2\n2 0 0 0 2\n3 0 0 0 2\n1 0 0 0 2\n")),
    ]
}

/// Refusal 5, and the limits of the fields.
fn limits() -> Vec<Named> {
    vec![
        ("constants", with_rows("1 0 2147483648 0 2\n")),
        ("constants-first", with_row("0 2 2147483648 0 2")),
        ("constants-last", with_last("63 0 2147483648 0 2")),
        ("constants-most", with_row("0 2 2147483647 0 2")),
        ("upvalues", with_row("0 2 1 256 2")),
        ("upvalues-later", with_rows("1 0 0 256 2\n")),
        ("upvalues-last", with_last("63 0 0 256 2")),
        ("upvalues-most", with_row("0 2 1 255 2")),
        ("stack", with_row("0 2 1 0 256")),
        ("stack-later", with_rows("1 0 0 0 256\n")),
        ("stack-last", with_last("63 0 0 0 256")),
        ("stack-most", with_row("0 2 1 0 255")),
        ("stack-twice", with_rows("1 0 0 0 2\n1 0 0 0 256\n1 0 0 0 257\n")),
        ("fields-most", with_rows("1 0 2147483647 255 255\n")),
    ]
}

/// Refusal 6.
fn word_counts() -> Vec<Named> {
    vec![
        ("words-most", changed("0 2 1 0 2\n", "0 4294967295 1 0 2\n1 3 1 0 2\n")),
        ("words-bytes-wrap", with_row("0 1073741826 1 0 2")),
        ("words-none-stated", with_row("0 0 1 0 2")),
        ("words-one-more-stated", with_rows("1 1 0 0 2\n")),
        ("words-in-two-rows", changed("0 2 1 0 2\n", "0 1 1 0 2\n1 1 0 0 2\n")),
    ]
}

/// Refusal 8: more diagnostics than there is room for. SELF with no registers and no constants has four.
fn diagnostics() -> Vec<Named> {
    let two = abc(op::CALL, 0, 5, 5);
    let four = image(&[Source::main(0, 0, 0, &[&[abc(op::SELF, 0, 0, 256); 512][..], &[63]].concat())]);
    vec![
        ("diagnostics-2048", listing(&one(&[63; 2_048]))),
        ("diagnostics-2049", listing(&one(&[&[63; 2_047][..], &[two]].concat()))),
        ("diagnostics-2049-by-fours", listing(&four)),
        ("diagnostics-4096", listing(&one(&[two; 2_048]))),
    ]
}

/// Incoming diagnostics, and the limit on all of them.
fn incoming() -> Vec<Named> {
    let limit = |warnings, errors, code| listing(&image_with(warnings, errors, &[Source::main(0, 0, 251, code)]));
    vec![
        ("incoming-most", changed("0 0\n", "4294967295 4294967295\n")),
        ("incoming-warnings", changed("0 0\n", "1234567890 0\n")),
        ("incoming-errors", changed("0 0\n", "0 1234567890\n")),
        ("limit", limit(9_999, 0, &[RETURN])),
        ("limit-open", limit(9_999, 0, &[])),
        ("limit-error", limit(9_999, 1, &[RETURN])),
    ]
}

/// All 17 codes, with jumps back and forth as far as they go.
fn codes() -> Image {
    let main = [
        63,
        asbx(op::JMP, 0, -131_071),
        asbx(op::JMP, 0, 131_072),
        asbx(op::JMP, 0, 12),
        abx(op::LOADK, 0, 262_143),
        abc(op::GETUPVAL, 0, 511, 0),
        abc(op::EQ, 255, 0, 0),
        abc(op::MOVE, 255, 511, 0),
        abc(op::SELF, 250, 0, 0),
        abc(op::CONCAT, 0, 0, 511),
        abc(op::ADD, 0, 511, 510),
        closure(0, 262_143),
        setlist_long(0, 0),
        0,
        closure(0, 0),
        63,
        abx(op::LOADK, 0, 0),
        closure(0, 0),
        bind_register(0),
    ];
    let child = [RETURN, setlist_long(0, 0)];
    image(&[Source::main(0, 0, 251, &main), Source::main(0, 2, 1, &child).at(1)])
}

/// A row for each depth below 64, with the code that is given for it.
fn deep(code: fn(u32) -> Vec<u32>) -> Vec<u8> {
    let row = |depth: u32| Source::main(0, 0, 2, &code(depth)).at(depth);
    listing(&image(&(0..MOST_ROWS as u32).map(row).collect::<Vec<_>>()))
}

/// A main row and 63 children.
fn wide() -> Vec<u8> {
    let mut sources = vec![Source::main(0, 0, 2, &[closure(0, 62), closure(1, 63), RETURN])];
    sources.extend((1..MOST_ROWS).map(|_| Source::main(0, 0, 251, &[RETURN]).at(1)));
    listing(&image(&sources))
}

/// Listings that are accepted, for the form of their diagnostics.
fn accepted() -> Vec<Named> {
    let nested = |depth: u32| if depth < 63 { vec![closure(1, 0), RETURN] } else { vec![RETURN] };
    vec![
        ("sample", sample()),
        ("codes", listing(&codes())),
        ("words-all-digits", changed("00004001\n0080001e\n", "01234567\n89abcdef\n")),
        ("words-ffffffff", changed("00004001\n0080001e\n", "ffffffff\n00000000\n")),
        ("rows-64-valid", deep(nested)),
        ("rows-64-invalid", deep(|_| vec![63])),
        ("rows-64-wide", wide()),
    ]
}

pub fn judged() -> Vec<Named> {
    [accepted(), depths(), limits(), word_counts(), diagnostics(), incoming()].concat()
}
