//! `words list` prints the words that the program decode_words is run on; `words split` reads words and prints the
//! lines that decode_words must print, by luad's published opcodes.rs.
use luad::opcodes::{OpMode51, Opcode51, RawInstruction51};
use std::io::{self, BufRead};

/// Values at the edges of a field of `bits` bits: both ends, and the two around the middle.
fn edges(bits: u32) -> [u32; 4] {
    let top = 1u32 << bits;
    [0, top / 2 - 1, top / 2, top - 1]
}

/// Every opcode with each operand field at its edges, the others once all 0 and once all 1; every single bit, and
/// every single bit missing; and words of a fixed pseudo-random sequence.
fn list() -> Vec<u32> {
    let mut words = Vec::new();
    let fields = [(6, 8), (14, 9), (23, 9), (14, 18)];
    for opcode in 0..64u32 {
        for (position, bits) in fields {
            let mask = ((1u32 << bits) - 1) << position;
            for value in edges(bits) {
                words.push(opcode | value << position);
                words.push(opcode | (0xffff_ffc0 & !mask) | value << position);
            }
        }
    }
    for bit in 0..32 {
        words.push(1 << bit);
        words.push(!(1 << bit));
    }
    let mut state = 51u64;
    for _ in 0..512 {
        state = state.wrapping_mul(6364136223846793005).wrapping_add(1442695040888963407);
        words.push((state >> 32) as u32);
    }
    words.sort_unstable();
    words.dedup();
    words
}

fn flag(b: bool) -> u8 {
    b as u8
}

/// Opcode number, A and sBx, four bytes each, least byte first.
fn record(w: &RawInstruction51) -> String {
    let fields = [u32::from(w.opcode_num).to_le_bytes(), u32::from(w.a).to_le_bytes(), w.sbx.to_le_bytes()];
    fields.concat().iter().map(|b| format!("{b:02x}")).collect()
}

/// An opcode's name, mode and operand kinds.
fn properties(opcode: Option<Opcode51>) -> String {
    let Some(op) = opcode else { return "- - - - - - -".to_string() };
    let mode = match op.mode() {
        OpMode51::IABC => "iABC",
        OpMode51::IABx => "iABx",
        OpMode51::IAsBx => "iAsBx",
    };
    format!(
        "{} {mode} {} {} {} {} {}",
        op.name(),
        flag(op.a_is_register()),
        flag(op.b_is_fixed_register()),
        flag(op.b_is_rk()),
        flag(op.c_is_fixed_register()),
        flag(op.c_is_rk())
    )
}

/// A word's line.
fn line(raw: u32) -> String {
    let w = RawInstruction51::decode(raw);
    format!(
        "{:08x} {} {} {} {} {} {} {} {} {} {} {} {}",
        w.raw,
        w.opcode_num,
        w.a,
        w.b,
        w.c,
        w.bx,
        w.sbx,
        flag(w.is_b_k()),
        w.b_index_k(),
        flag(w.is_c_k()),
        w.c_index_k(),
        record(&w),
        properties(w.opcode)
    )
}

fn main() {
    match std::env::args().nth(1).as_deref() {
        Some("list") => list().iter().for_each(|w| println!("{w:08x}")),
        Some("split") => {
            println!("word opcode a b c bx sbx b_k b_index c_k c_index record name mode a_reg b_reg b_rk c_reg c_rk");
            for word in io::stdin().lock().lines() {
                println!("{}", line(u32::from_str_radix(&word.unwrap(), 16).unwrap()));
            }
        }
        _ => panic!("words list, or words split"),
    }
}
