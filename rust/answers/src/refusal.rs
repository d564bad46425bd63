//! The refusals 1 to 8, transcribed from document 01's table of them; luad has none.
use crate::image::{rows, Row, ROLE_BYTES, ROW_BYTES};
use crate::limits::{MAX_DEPTH, MAX_ROWS, MAX_WORDS};

/// The refusals by their numbers in document 01; 9 and 10 are the program's.
#[derive(Debug, Clone, Copy, PartialEq, Eq)]
pub enum Refusal {
    NoProtos = 1,
    PartialRow = 2,
    TooLarge = 3,
    BadDepth = 4,
    FieldOverLimit = 5,
    WordCountMismatch = 6,
    RoleBufferTooShort = 7,
    BufferTooShort = 8,
    MalformedLine = 9,
    ListingTooLong = 10,
}

/// A refusal and its figure: the first row that breaks its rule for 4 and 5, the records needed for 8, a line for 9 and 10, else 0.
#[derive(Debug, Clone, Copy, PartialEq, Eq)]
pub struct Refused {
    pub refusal: Refusal,
    pub figure: usize,
}

/// A refusal whose figure is 0.
fn plain(refusal: Refusal) -> Option<Refused> {
    Some(Refused { refusal, figure: 0 })
}

/// "Row 0 has depth 0; a later row has depth 1 to the previous depth plus 1"; and no depth is above 199.
fn depth_is_bad(rows: &[Row], row: usize) -> bool {
    let depth = u64::from(rows[row].depth);
    let follows = match row {
        0 => depth == 0,
        _ => 1 <= depth && depth <= u64::from(rows[row - 1].depth) + 1,
    };
    !follows || depth > u64::from(MAX_DEPTH)
}

/// "constants, upvalues or stack over limit".
pub fn field_is_over_limit(proto: &Row) -> bool {
    proto.constants > 2_147_483_647 || proto.upvalues > 255 || proto.stack > 255
}

/// The refusals 1 to 6, which depend on the image alone: the least that applies.
pub fn image_refusal(table: &[u8], words: &[u8]) -> Option<Refused> {
    if table.is_empty() {
        return plain(Refusal::NoProtos);
    }
    if table.len() % ROW_BYTES != 0 {
        return plain(Refusal::PartialRow);
    }
    if table.len() / ROW_BYTES > MAX_ROWS || words.len() > 4 * MAX_WORDS {
        return plain(Refusal::TooLarge);
    }
    let rows = rows(table);
    if let Some(figure) = (0..rows.len()).find(|row| depth_is_bad(&rows, *row)) {
        return Some(Refused { refusal: Refusal::BadDepth, figure });
    }
    if let Some(figure) = rows.iter().position(field_is_over_limit) {
        return Some(Refused { refusal: Refusal::FieldOverLimit, figure });
    }
    let stated: u64 = rows.iter().map(|proto| u64::from(proto.words)).sum();
    if words.len() as u64 != 4 * stated {
        return plain(Refusal::WordCountMismatch);
    }
    None
}

/// The refusals 1 to 7 of all three calls.
pub fn roles_refusal(table: &[u8], words: &[u8], roles_len: usize) -> Option<Refused> {
    let short = roles_len < ROLE_BYTES * (words.len() / 4);
    image_refusal(table, words).or(if short { plain(Refusal::RoleBufferTooShort) } else { None })
}

/// Refusal 8 of the bindings and check calls, after 1 to 7: more records of `record_len` bytes than fit.
pub fn records_refusal(needed: usize, record_len: usize, buffer_len: usize) -> Option<Refused> {
    let short = needed > buffer_len / record_len;
    short.then_some(Refused { refusal: Refusal::BufferTooShort, figure: needed })
}
