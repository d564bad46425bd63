//! Stand-in for luad-core's unpublished module `provenance`.

/// Where something stands in the input: its offset alone, without the bytes.
#[derive(Debug, Clone, PartialEq, Eq)]
pub struct SourceLocation {
    pub offset: usize,
}

impl SourceLocation {
    pub fn new(offset: usize, _: &[u8]) -> Self {
        Self { offset }
    }
}

/// How sure a detection is; the published files name this one.
#[derive(Debug, Clone, Copy, PartialEq, Eq)]
pub enum Confidence {
    Fact,
}
