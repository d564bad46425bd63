//! Diagnostic code numbers, and the values that luad's messages carry.
use luad::opcodes::Opcode51;

/// The names of the codes 1 to 17, in order of their numbers in document 01.
pub const CODES: [&str; 17] = [
    "L51-CLOSURE-001",
    "L51-SETLIST-001",
    "L51-STACK-001",
    "L51-OP-001",
    "L51-JMP-001",
    "L51-JMP-002",
    "L51-CONST-003",
    "L51-UPVAL-001",
    "L51-BOOL-001",
    "L51-REG-001",
    "L51-REG-SPAN-001",
    "L51-REG-002",
    "L51-REG-003",
    "L51-CONST-004",
    "L51-CONST-005",
    "L51-PROTO-002",
    "L51-CLOSURE-002",
];

/// A code's number in document 01.
pub fn code_number(name: &str) -> i32 {
    1 + CODES.iter().position(|code| *code == name).expect("a diagnostic code of document 01") as i32
}

/// What stands before the value in the message, by code; the first that occurs counts.
fn markers(code: i32) -> &'static [&'static str] {
    match code {
        3 => &["maxstacksize: "],
        5 => &["Jump destination PC "],
        6 => &["companion word at PC ", "Jump destination PC "],
        7 => &["Constant index "],
        8 => &["field B upvalue index ", "Closure binding parent upvalue B ("],
        9 => &["field A comparison flag "],
        10 => &["Register A ("],
        11 => &["..R("],
        12 => &["Register B (", "Closure binding parent register B ("],
        13 => &["Register C ("],
        14 => &["RK operand B constant index "],
        15 => &["RK operand C constant index "],
        16 => &["child prototype index "],
        _ => panic!("code {code} has no decimal value in its message"),
    }
}

/// The text after the first marker that occurs.
fn after<'a>(message: &'a str, markers: &[&str]) -> &'a str {
    let found = markers.iter().find_map(|marker| message.split_once(marker));
    found.unwrap_or_else(|| panic!("no value in: {message}")).1
}

/// The number at the start of a text.
fn leading_number(text: &str) -> i32 {
    let end = text.find(|c: char| c != '-' && !c.is_ascii_digit()).unwrap_or(text.len());
    text[..end].parse().expect("a number")
}

/// The opcode number behind `Some(Name)`, and -1 behind `None`.
fn opcode_number(text: &str) -> i32 {
    if text == "None" {
        return -1;
    }
    let is_it = |number: &u8| format!("{:?}", Opcode51::from_u8(*number)) == text;
    i32::from((0..38).find(is_it).expect("an opcode"))
}

/// The value in the message of a diagnostic other than codes 1 and 2, whose messages carry none.
pub fn value(code: i32, message: &str) -> i32 {
    match code {
        4 => i32::from_str_radix(&after(message, &["Invalid opcode 0x"])[..2], 16).expect("two hexadecimal digits"),
        17 => opcode_number(after(message, &["expected MOVE or GETUPVAL, found "])),
        _ => leading_number(after(message, markers(code))),
    }
}
