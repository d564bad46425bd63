//! The fields of a word, split as document 01 says.

/// "Opcode: bits 0 to 5. A: 6 to 13. C: 14 to 22. B: 23 to 31. Bx: 14 to 31. sBx = Bx - 131,071."
#[derive(Debug, Clone, Copy, PartialEq, Eq)]
pub struct Fields {
    pub opcode: u32,
    pub a: u32,
    pub b: u32,
    pub c: u32,
    pub bx: u32,
    pub sbx: i64,
}

impl Fields {
    pub fn of(word: u32) -> Self {
        let bx = word >> 14;
        Self {
            opcode: word & 0x3f,
            a: word >> 6 & 0xff,
            b: word >> 23,
            c: word >> 14 & 0x1ff,
            bx,
            sbx: i64::from(bx) - 131_071,
        }
    }

    /// "Opcodes 0 to 37 are known."
    pub fn is_known(self) -> bool {
        self.opcode <= 37
    }
}
