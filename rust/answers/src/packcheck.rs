//! What the program packcheck prints for a listing, transcribed from document 01; verdicts and diagnostics are luad's.
//!
//! Document 01 does not say where the word lines end. They are taken to go on to the end of the input, so that more or
//! fewer of them than the rows state are refusal 6, and not a line out of form or missing.
use crate::calls::calls;
use crate::image::{le_bytes, Buffers, Image, DIAGNOSTIC_BYTES, ROLE_BYTES};
use crate::message::CODES;
use crate::refusal::{Refusal, Refused};

/// Rows and words that a listing has at most, and the diagnostics that the program has room for.
pub const MOST_ROWS: usize = 64;
pub const MOST_WORDS: usize = 2_048;
const MOST_DIAGNOSTICS: usize = 2_048;

/// The names lines of the input.
const INCOMING_NAMES: &[u8] = b"warnings errors";
const ROW_NAMES: &[u8] = b"depth words constants upvalues stack";
const WORD_NAMES: &[u8] = b"word";

/// The lines of a listing, counted from 1.
struct Lines<'a> {
    rest: &'a [u8],
    number: usize,
}

impl<'a> Lines<'a> {
    fn refused(&self, refusal: Refusal) -> Refused {
        Refused { refusal, figure: self.number }
    }

    /// The next line; one that is missing, or cut by the end of the input, is malformed.
    fn next(&mut self) -> Result<&'a [u8], Refused> {
        self.number += 1;
        let end = self.rest.iter().position(|byte| *byte == b'\n');
        let end = end.ok_or(self.refused(Refusal::MalformedLine))?;
        let line = &self.rest[..end];
        self.rest = &self.rest[end + 1..];
        Ok(line)
    }

    /// The next line must be these names.
    fn names(&mut self, names: &[u8]) -> Result<(), Refused> {
        if self.next()? == names {
            Ok(())
        } else {
            Err(self.refused(Refusal::MalformedLine))
        }
    }
}

/// A decimal u32 without a leading zero.
fn decimal(digits: &[u8]) -> Option<u32> {
    let leading_zero = digits.len() > 1 && digits[0] == b'0';
    if digits.is_empty() || leading_zero || !digits.iter().all(u8::is_ascii_digit) {
        return None;
    }
    std::str::from_utf8(digits).ok()?.parse().ok()
}

/// `count` decimals with single spaces between them.
fn decimals(line: &[u8], count: usize) -> Option<Vec<u32>> {
    let values: Vec<u32> = line.split(|byte| *byte == b' ').map(decimal).collect::<Option<_>>()?;
    (values.len() == count).then_some(values)
}

/// A word: eight lower-case hexadecimal digits.
fn word(line: &[u8]) -> Option<u32> {
    let digits = line.iter().all(|byte| byte.is_ascii_digit() || (b'a'..=b'f').contains(byte));
    if line.len() != 8 || !digits {
        return None;
    }
    u32::from_str_radix(std::str::from_utf8(line).ok()?, 16).ok()
}

/// The rows, up to and with the names line of the words.
fn read_rows(lines: &mut Lines) -> Result<Vec<u8>, Refused> {
    let mut table = Vec::new();
    for row in 0.. {
        let line = lines.next()?;
        if line == WORD_NAMES {
            break;
        }
        let fields = decimals(line, 5).ok_or(lines.refused(Refusal::MalformedLine))?;
        if row == MOST_ROWS {
            return Err(lines.refused(Refusal::ListingTooLong));
        }
        table.extend(le_bytes(&fields));
    }
    Ok(table)
}

/// The words, up to the end of the input.
fn read_words(lines: &mut Lines) -> Result<Vec<u8>, Refused> {
    let mut words = Vec::new();
    while !lines.rest.is_empty() {
        let line = lines.next()?;
        let word = word(line).ok_or(lines.refused(Refusal::MalformedLine))?;
        if words.len() == 4 * MOST_WORDS {
            return Err(lines.refused(Refusal::ListingTooLong));
        }
        words.extend(word.to_le_bytes());
    }
    Ok(words)
}

/// The image of a listing, with the program's buffers.
fn read_listing(input: &[u8]) -> Result<Image, Refused> {
    let mut lines = Lines { rest: input, number: 0 };
    lines.names(INCOMING_NAMES)?;
    let incoming = decimals(lines.next()?, 2).ok_or(lines.refused(Refusal::MalformedLine))?;
    lines.names(ROW_NAMES)?;
    let table = read_rows(&mut lines)?;
    let words = read_words(&mut lines)?;
    let buffers =
        Buffers { roles: ROLE_BYTES * MOST_WORDS, bindings: 0, diagnostics: DIAGNOSTIC_BYTES * MOST_DIAGNOSTICS };
    Ok(Image { label: String::new(), warnings: incoming[0], errors: incoming[1], table, words, buffers })
}

/// The program's output for an image.
fn report(image: &Image) -> Result<String, Refused> {
    let calls = calls(image);
    let count = calls.check?;
    let answer = calls.answer.expect("an answer where the check call is accepted");
    let mut text = String::from("row place code value\n");
    for [row, pc, code, value] in answer.diagnostics {
        text += &format!("{row} {pc} {} {value}\n", CODES[code as usize - 1]);
    }
    Ok(text + &format!("verdict findings\n{:?} {count}\n", answer.verdict))
}

/// What packcheck prints for its input.
pub fn packcheck(input: &[u8]) -> String {
    let report = read_listing(input).and_then(|image| report(&image));
    report.unwrap_or_else(|refused| format!("refused {} {}\n", refused.refusal as u32, refused.figure))
}
