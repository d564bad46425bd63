//! An image as a Lua 5.1 binary chunk.
use crate::image::Row;
use crate::limits::MAX_DEPTH;

/// Signature, version, format, little-endian, and the sizes of int, size_t, Instruction and lua_Number.
const HEADER: [u8; 12] = [0x1b, b'L', b'u', b'a', 0x51, 0, 1, 4, 4, 4, 8, 0];

/// Constants that a chunk is given at most. Bx reaches 262,143 and an RK constant 255, so no word can tell a larger
/// number of constants from this one.
const MOST_CONSTANTS: u32 = 262_144;

/// The children of each row, in order: a row's parent is the last row before it that is one less deep.
pub fn children(rows: &[Row]) -> Vec<Vec<usize>> {
    let mut children = vec![Vec::new(); rows.len()];
    let mut last = [0; MAX_DEPTH as usize + 1];
    for (row, proto) in rows.iter().enumerate() {
        let depth = proto.depth as usize;
        if depth > 0 {
            children[last[depth - 1]].push(row);
        }
        last[depth] = row;
    }
    children
}

struct Encoder<'a> {
    rows: &'a [Row],
    words: &'a [u8],
    children: Vec<Vec<usize>>,
    /// The byte where each row's code begins in `words`.
    starts: Vec<usize>,
    bytes: Vec<u8>,
}

impl Encoder<'_> {
    fn int(&mut self, value: usize) {
        self.bytes.extend((value as u32).to_le_bytes());
    }

    fn proto(&mut self, row: usize) {
        let proto = self.rows[row];
        self.int(0); // no source name
        self.int(0); // first line
        self.int(0); // last line
        self.bytes.extend([proto.upvalues as u8, 0, 0, proto.stack as u8]);
        self.int(proto.words as usize);
        let start = self.starts[row];
        self.bytes.extend(&self.words[start..start + 4 * proto.words as usize]);
        let constants = proto.constants.min(MOST_CONSTANTS) as usize;
        self.int(constants);
        self.bytes.extend(vec![0; constants]); // each is nil
        let children = std::mem::take(&mut self.children[row]);
        self.int(children.len());
        for child in children {
            self.proto(child);
        }
        self.int(0); // no line information
        self.int(0); // no local variables
        self.int(0); // no upvalue names
    }
}

/// The chunk of an image that has none of the refusals 1 to 6.
pub fn encode(rows: &[Row], words: &[u8]) -> Vec<u8> {
    let mut starts = Vec::new();
    let mut start = 0;
    for proto in rows {
        starts.push(start);
        start += 4 * proto.words as usize;
    }
    let mut encoder = Encoder { rows, words, children: children(rows), starts, bytes: HEADER.to_vec() };
    encoder.proto(0);
    encoder.bytes
}
