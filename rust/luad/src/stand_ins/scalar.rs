//! Stand-in for luad-core's unpublished module `scalar`.

/// A string's display form; the comparison has no strings.
pub fn escape_bytes(bytes: &[u8]) -> String {
    bytes.escape_ascii().to_string()
}
