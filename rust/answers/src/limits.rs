//! Limits of document 01 that more than one program needs, by the names of include/luad51.h.

/// Rows and words of an image at most.
pub const MAX_ROWS: usize = 16_384;
pub const MAX_WORDS: usize = 1_048_576;
/// The depth of a row at most.
pub const MAX_DEPTH: u32 = 199;
/// Incoming and new diagnostics that end a check, and the new ones that a check gives at most.
pub const DIAGNOSTIC_LIMIT: usize = 10_000;
pub const MAX_DIAGNOSTICS: usize = 10_255;
