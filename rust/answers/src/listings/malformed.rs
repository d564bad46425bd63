//! Listings with one line out of form.
use super::{changed, sample, Named};

/// Names lines that are nearly right.
fn names() -> Vec<Named> {
    vec![
        ("names-1", changed("warnings", "Warnings")),
        ("names-1-short", changed("errors", "error")),
        ("names-1-long", changed("errors", "errorss")),
        ("names-3", changed("depth words", "depth  words")),
        ("names-3-upper", changed("stack", "STACK")),
        ("names-3-short", changed("stack", "stac")),
        ("names-3-long", changed("stack", "stack size")),
        ("names-5", changed("word\n", "words\n")),
        ("names-5-upper", changed("word\n", "Word\n")),
        ("names-5-short", changed("word\n", "wor\n")),
        ("byte-order-mark", changed("warnings", "\u{feff}warnings")),
    ]
}

/// Lines of decimals with too few or too many of them, or with other bytes.
fn decimals() -> Vec<Named> {
    vec![
        ("incoming-one", changed("0 0\n", "0\n")),
        ("incoming-three", changed("0 0\n", "0 0 0\n")),
        ("incoming-long", changed("0 0\n", "99999999999999999999999 0\n")),
        ("incoming-spaces", changed("0 0\n", "0  0\n")),
        ("incoming-tab", changed("0 0\n", "0\t0\n")),
        ("incoming-comma", changed("0 0\n", "0,0\n")),
        ("incoming-zeros", changed("0 0\n", "00 00\n")),
        ("incoming-below-0", changed("0 0\n", "0 /\n")),
        ("incoming-above-9", changed("0 0\n", "0 :\n")),
        ("row-four", changed("0 2 1 0 2", "0 2 1 0")),
        ("row-six", changed("0 2 1 0 2", "0 2 1 0 2 0")),
        ("row-hex", changed("0 2 1 0 2", "0 2 1 0 0x2")),
        ("row-letter", changed("0 2 1 0 2", "0 2 1 0 a")),
        ("row-spaces", changed("0 2 1 0 2", "0 2  1 0 2")),
        ("row-tab", changed("0 2 1 0 2", "0 2 1 0\t2")),
        ("row-below-0", changed("0 2 1 0 2", "0 / 1 0 2")),
        ("row-above-9", changed("0 2 1 0 2", "0 2 : 0 2")),
        ("row-second", changed("0 2 1 0 2\n", "0 2 1 0 2\n1 0 0 0 02\n")),
    ]
}

/// Words with too few or too many digits, or with other bytes.
fn words() -> Vec<Named> {
    vec![
        ("word-short", changed("00004001", "0004001")),
        ("word-long", changed("00004001", "000004001")),
        ("word-two", changed("00004001\n", "00004001 ")),
        ("word-upper", changed("0080001e", "0080001E")),
        ("word-upper-first", changed("00004001", "A0004001")),
        ("word-letter", changed("0080001e", "0080001g")),
        ("word-below-0", changed("0080001e", "/080001e")),
        ("word-above-9", changed("0080001e", "00:0001e")),
        ("word-below-a", changed("0080001e", "0080001`")),
        ("word-plus", changed("00004001", "+0004001")),
        ("word-minus", changed("00004001", "-0004001")),
        ("word-prefix", changed("00004001", "0x004001")),
        ("word-space", changed("00004001", "00004 01")),
    ]
}

/// More after the last line.
fn ends() -> Vec<Named> {
    let ended = |bytes: &[u8]| [&sample(), bytes].concat();
    vec![
        ("word-blank-last", ended(b"\n")),
        ("word-space-last", ended(b" \n")),
        ("end-space", ended(b" ")),
        ("end-nul", ended(b"\0")),
        ("end-1a", ended(b"\x1a")),
        ("end-ff", ended(b"\xff")),
        ("end-sample", ended(&sample())),
    ]
}

pub fn malformed() -> Vec<Named> {
    let returns = sample().into_iter().flat_map(|byte| if byte == b'\n' { b"\r\n".to_vec() } else { vec![byte] });
    let everywhere = vec![("carriage-return", returns.collect())];
    [names(), decimals(), words(), ends(), everywhere].concat()
}
