//! Flaws in refusals, figures and buffers.
use super::{Flaw, Variant};
use answers::calls::Outcome;
use answers::image::{rows, Image, Row, ROW_BYTES};
use answers::limits::{MAX_ROWS, MAX_WORDS};
use answers::refusal::{field_is_over_limit, Refusal, Refused};
use archive::{Call, RECORD_BYTES};

#[derive(Debug, Clone, Copy, PartialEq, Eq)]
pub enum Protocol {
    RolesUnwritten,
    OwnUnwritten,
    RolesUnwrittenOn8,
    RolesWrittenOn7,
    OwnWrittenOn8,
    PastRecordsCleared,
    CountOneMore,
    CountOneLess,
    ExactFitRefused,
    VerdictOnRefusal,
    UncheckedCheck,
    CheckedRefusal,
    CheckedOtherCall,
    Figure4IsZero,
    Figure5IsLast,
    Figure8IsZero,
    FieldBeforeDepth,
    WordsBeforeField,
    OwnBeforeRoles,
    Depth199Refused,
    Stack255Refused,
    Upvalues255Refused,
    RowsAtLimitRefused,
    WordsAtLimitRefused,
    TooManyConstantsAccepted,
}

use Protocol::*;

const VARIANTS: [(Protocol, &str); 25] = [
    (RolesUnwritten, "role buffer unwritten"),
    (OwnUnwritten, "own buffer unwritten"),
    (RolesUnwrittenOn8, "refusal 8 without roles written"),
    (RolesWrittenOn7, "refusal 7 with roles written"),
    (OwnWrittenOn8, "refusal 8 with records written"),
    (PastRecordsCleared, "what lies past the records cleared"),
    (CountOneMore, "check's count one more than its records"),
    (CountOneLess, "check's count one less than its records"),
    (ExactFitRefused, "an exact fit refused with 8"),
    (VerdictOnRefusal, "a verdict with a refusal"),
    (UncheckedCheck, "an accepted check without bit 47"),
    (CheckedRefusal, "a refused check with bit 47"),
    (CheckedOtherCall, "another accepted call with bit 47"),
    (Figure4IsZero, "refusal 4 with figure 0"),
    (Figure5IsLast, "refusal 5 with the last row over a limit"),
    (Figure8IsZero, "refusal 8 with figure 0"),
    (FieldBeforeDepth, "refusal 5 before 4"),
    (WordsBeforeField, "refusal 6 before 5"),
    (OwnBeforeRoles, "refusal 8 before 7"),
    (Depth199Refused, "depth 199 refused"),
    (Stack255Refused, "stack 255 refused"),
    (Upvalues255Refused, "255 upvalues refused"),
    (RowsAtLimitRefused, "16,384 rows refused"),
    (WordsAtLimitRefused, "1,048,576 words refused"),
    (TooManyConstantsAccepted, "refusal 5 not for constants"),
];

fn refuse(refusal: Refusal, figure: usize) -> Outcome {
    Err(Refused { refusal, figure })
}

/// A refusal with the first row of which something holds; where there is none, the right outcome.
fn refuse_row(right: Outcome, image: &Image, refusal: Refusal, breaks: fn(&Row) -> bool) -> Outcome {
    rows(&image.table).iter().position(breaks).map_or(right, |row| refuse(refusal, row))
}

/// Whether the words are not as many as the rows state.
fn word_count_differs(image: &Image) -> bool {
    let stated: u64 = rows(&image.table).iter().map(|row| u64::from(row.words)).sum();
    image.words.len() as u64 != 4 * stated
}

impl Protocol {
    /// The outcome with the flaw, out of the right one. `needed` are the call's records.
    pub fn outcome(self, right: Outcome, call: Call, image: &Image, own_len: usize, needed: usize) -> Outcome {
        match (right, call) {
            (Ok(records), Call::Check) if self == CountOneMore => Ok(records + 1),
            (Ok(records), Call::Check) if self == CountOneLess => Ok(records.saturating_sub(1)),
            (Ok(records), Call::Bindings | Call::Check) if self == ExactFitRefused => {
                let exact = records > 0 && own_len / RECORD_BYTES[call as usize] == records;
                if exact {
                    refuse(Refusal::BufferTooShort, records)
                } else {
                    right
                }
            }
            (Err(refused), _) => self.refused(refused, call, image, own_len, needed),
            (Ok(_), _) => self.narrower(right, image),
        }
    }

    /// What an accepted image gets where a limit is one less.
    fn narrower(self, right: Outcome, image: &Image) -> Outcome {
        match self {
            Depth199Refused => refuse_row(right, image, Refusal::BadDepth, |row| row.depth >= 199),
            Stack255Refused => refuse_row(right, image, Refusal::FieldOverLimit, |row| row.stack >= 255),
            Upvalues255Refused => refuse_row(right, image, Refusal::FieldOverLimit, |row| row.upvalues >= 255),
            RowsAtLimitRefused if image.table.len() / ROW_BYTES >= MAX_ROWS => refuse(Refusal::TooLarge, 0),
            WordsAtLimitRefused if image.words.len() >= 4 * MAX_WORDS => refuse(Refusal::TooLarge, 0),
            _ => right,
        }
    }

    /// What a refused image gets.
    fn refused(self, refused: Refused, call: Call, image: &Image, own_len: usize, needed: usize) -> Outcome {
        let right = Err(refused);
        let short = call != Call::Roles && needed > own_len / RECORD_BYTES[call as usize];
        match (self, refused.refusal) {
            (Figure4IsZero, Refusal::BadDepth) => refuse(Refusal::BadDepth, 0),
            (Figure5IsLast, Refusal::FieldOverLimit) => {
                let last = rows(&image.table).iter().rposition(field_is_over_limit);
                refuse(Refusal::FieldOverLimit, last.expect("a breaks row"))
            }
            (Figure8IsZero, Refusal::BufferTooShort) => refuse(Refusal::BufferTooShort, 0),
            (FieldBeforeDepth, Refusal::BadDepth) => {
                refuse_row(right, image, Refusal::FieldOverLimit, field_is_over_limit)
            }
            (WordsBeforeField, Refusal::FieldOverLimit) if word_count_differs(image) => {
                refuse(Refusal::WordCountMismatch, 0)
            }
            (OwnBeforeRoles, Refusal::RoleBufferTooShort) if short => refuse(Refusal::BufferTooShort, needed),
            (TooManyConstantsAccepted, Refusal::FieldOverLimit) => {
                let other = |row: &Row| row.upvalues > 255 || row.stack > 255;
                rows(&image.table).iter().position(other).map_or(Ok(0), |row| refuse(Refusal::FieldOverLimit, row))
            }
            _ => right,
        }
    }
}

pub fn variants() -> Vec<Variant> {
    let variant = |(flaw, name): (Protocol, &str)| Variant { name: name.to_string(), flaw: Flaw::Protocol(flaw) };
    VARIANTS.map(variant).into()
}
