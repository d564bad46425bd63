//! Instruction words, put together from their fields.

/// Opcode numbers.
pub mod op {
    pub const MOVE: u32 = 0;
    pub const LOADK: u32 = 1;
    pub const LOADBOOL: u32 = 2;
    pub const LOADNIL: u32 = 3;
    pub const GETUPVAL: u32 = 4;
    pub const GETGLOBAL: u32 = 5;
    pub const GETTABLE: u32 = 6;
    pub const SETGLOBAL: u32 = 7;
    pub const SETUPVAL: u32 = 8;
    pub const SETTABLE: u32 = 9;
    pub const NEWTABLE: u32 = 10;
    pub const SELF: u32 = 11;
    pub const ADD: u32 = 12;
    pub const POW: u32 = 17;
    pub const UNM: u32 = 18;
    pub const CONCAT: u32 = 21;
    pub const JMP: u32 = 22;
    pub const EQ: u32 = 23;
    pub const LT: u32 = 24;
    pub const LE: u32 = 25;
    pub const TEST: u32 = 26;
    pub const TESTSET: u32 = 27;
    pub const CALL: u32 = 28;
    pub const TAILCALL: u32 = 29;
    pub const RETURN: u32 = 30;
    pub const FORLOOP: u32 = 31;
    pub const FORPREP: u32 = 32;
    pub const TFORLOOP: u32 = 33;
    pub const SETLIST: u32 = 34;
    pub const CLOSE: u32 = 35;
    pub const CLOSURE: u32 = 36;
    pub const VARARG: u32 = 37;
}

/// RETURN without values.
pub const RETURN: u32 = 0x0080_001e;

/// A word of opcode, A, B and C.
pub fn abc(opcode: u32, a: u32, b: u32, c: u32) -> u32 {
    opcode | a << 6 | c << 14 | b << 23
}

/// A word of opcode, A and Bx.
pub fn abx(opcode: u32, a: u32, bx: u32) -> u32 {
    opcode | a << 6 | bx << 14
}

/// A word of opcode, A and sBx.
pub fn asbx(opcode: u32, a: u32, sbx: i32) -> u32 {
    abx(opcode, a, (sbx + 131_071) as u32)
}

/// A jump at `pc` to `target`.
pub fn jump(opcode: u32, a: u32, pc: usize, target: i32) -> u32 {
    asbx(opcode, a, target - pc as i32 - 1)
}

/// CLOSURE of a child into register A.
pub fn closure(a: u32, child: u32) -> u32 {
    abx(op::CLOSURE, a, child)
}

/// SETLIST with C = 0, which owns one companion word.
pub fn setlist_long(a: u32, b: u32) -> u32 {
    abc(op::SETLIST, a, b, 0)
}

/// A binding word: MOVE.
pub fn bind_register(b: u32) -> u32 {
    abc(op::MOVE, 0, b, 0)
}

/// A binding word: GETUPVAL.
pub fn bind_upvalue(b: u32) -> u32 {
    abc(op::GETUPVAL, 0, b, 0)
}
