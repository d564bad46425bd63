//! An image: a prototype table, its words, the incoming numbers, and the lengths of the caller's buffers.

/// Bytes of one row of the prototype table.
pub const ROW_BYTES: usize = 20;
/// Bytes of one role, binding and diagnostic record.
pub const ROLE_BYTES: usize = 8;
pub const BINDING_BYTES: usize = 12;
pub const DIAGNOSTIC_BYTES: usize = 16;

/// Lengths in bytes of the caller's three buffers.
#[derive(Debug, Clone, Copy, PartialEq, Eq, Default)]
pub struct Buffers {
    pub roles: usize,
    pub bindings: usize,
    pub diagnostics: usize,
}

/// A prototype table and its words, as bytes; they need not fit each other.
#[derive(Debug, Clone, PartialEq, Eq, Default)]
pub struct Image {
    pub label: String,
    pub warnings: u32,
    pub errors: u32,
    pub table: Vec<u8>,
    pub words: Vec<u8>,
    pub buffers: Buffers,
}

/// One row of the prototype table.
#[derive(Debug, Clone, Copy, PartialEq, Eq)]
pub struct Row {
    pub depth: u32,
    pub words: u32,
    pub constants: u32,
    pub upvalues: u32,
    pub stack: u32,
}

/// The u32 fields of a byte slice, least byte first; a rest of less than four bytes is left out.
pub fn fields(bytes: &[u8]) -> Vec<u32> {
    bytes.chunks_exact(4).map(|four| u32::from_le_bytes([four[0], four[1], four[2], four[3]])).collect()
}

/// The rows of a prototype table; a rest that is not a whole row is left out.
pub fn rows(table: &[u8]) -> Vec<Row> {
    let row =
        |five: &[u32]| Row { depth: five[0], words: five[1], constants: five[2], upvalues: five[3], stack: five[4] };
    fields(table).chunks_exact(5).map(row).collect()
}

impl Image {
    /// Whether the image is written without repetition: below 12 rows and 40 words.
    pub fn is_small(&self) -> bool {
        self.table.len() < 12 * ROW_BYTES && self.words.len() < 40 * 4
    }
}

/// A prototype and its code, from which images are built.
#[derive(Debug, Clone, PartialEq, Eq)]
pub struct Source {
    pub depth: u32,
    pub constants: u32,
    pub upvalues: u32,
    pub stack: u32,
    pub code: Vec<u32>,
}

impl Source {
    /// A prototype at depth 0.
    pub fn main(constants: u32, upvalues: u32, stack: u32, code: &[u32]) -> Self {
        Self { depth: 0, constants, upvalues, stack, code: code.to_vec() }
    }

    /// The same prototype at another depth.
    pub fn at(mut self, depth: u32) -> Self {
        self.depth = depth;
        self
    }
}

/// The bytes of u32 fields, least byte first.
pub fn le_bytes(fields: &[u32]) -> Vec<u8> {
    fields.iter().flat_map(|field| field.to_le_bytes()).collect()
}

/// The image of prototypes in preorder, with no incoming diagnostics.
pub fn image(sources: &[Source]) -> Image {
    let mut image = Image::default();
    for source in sources {
        let words = source.code.len() as u32;
        image.table.extend(le_bytes(&[source.depth, words, source.constants, source.upvalues, source.stack]));
        image.words.extend(le_bytes(&source.code));
    }
    image
}

/// The image of prototypes in preorder, with incoming diagnostics.
pub fn image_with(warnings: u32, errors: u32, sources: &[Source]) -> Image {
    Image { warnings, errors, ..image(sources) }
}
