//! Reading and splitting words, against luad's `RawInstruction51::decode`.
use crate::timing::turns_about;
use answers::rng::Rng;
use luad::opcodes::RawInstruction51;
use std::hint::black_box;

#[link(name = "words_digest", kind = "static")]
extern "C" {
    fn words_digest(words: *const u8, len: usize) -> u64;
}

/// The digest by the proved code.
fn proved(words: &[u8]) -> u64 {
    unsafe { words_digest(words.as_ptr(), words.len()) }
}

/// The same digest by luad's `RawInstruction51::decode`.
fn published(words: &[u8]) -> u64 {
    words.chunks_exact(4).fold(0u64, |sum, bytes| {
        let w = RawInstruction51::decode(u32::from_le_bytes(bytes.try_into().unwrap()));
        let opcode = match w.opcode {
            Some(op) if op.a_is_register() => 17,
            Some(_) => 19,
            None => 23 + u64::from(w.opcode_num),
        };
        sum.wrapping_add(
            u64::from(w.opcode_num)
                + u64::from(w.a) * 3
                + u64::from(w.b) * 5
                + u64::from(w.c) * 7
                + u64::from(w.bx) * 11
                + u64::from(w.sbx as u32) * 13
                + opcode,
        )
    })
}

/// Pseudo-random words; with `known`, only known opcodes.
fn words(count: usize, known: bool) -> Vec<u8> {
    let mut rng = Rng::new(51);
    let mut bytes = Vec::with_capacity(4 * count);
    for _ in 0..count {
        let mut word = rng.bits() as u32;
        if known {
            word = (word & !63) | ((word & 63) % 38);
        }
        bytes.extend(word.to_le_bytes());
    }
    bytes
}

/// One digest, whose result counts as used.
fn run(digest: fn(&[u8]) -> u64, words: &[u8]) {
    black_box(digest(black_box(words)));
}

pub fn time() {
    let count = 1 << 20;
    for (name, known) in [("any words", false), ("known opcodes", true)] {
        let mut words = words(count, known);
        assert_eq!(proved(&words), published(&words));
        let (ours, theirs) = turns_about(201, &mut words, |words| run(proved, words), |words| run(published, words));
        println!(
            "{count} {name}: proved {:.3} ms, luad {:.3} ms, ratio {:.2}",
            ours * 1e3,
            theirs * 1e3,
            ours / theirs
        );
    }
}

/// Each word by itself, so that differences in two words cannot cancel.
pub fn all(step: usize) {
    let (mut compared, mut different) = (0u64, 0u64);
    for word in (0..=u32::MAX).step_by(step) {
        let bytes = word.to_le_bytes();
        compared += 1;
        if proved(&bytes) != published(&bytes) {
            different += 1;
            if different == 1 {
                println!("first difference at {word:08x}");
            }
        }
    }
    println!("{compared} words compared, {different} different");
    assert_eq!(different, 0);
}
