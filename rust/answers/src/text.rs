//! The text format of images and answers, described in tests/answers/README.md.
use crate::calls::{Calls, Outcome};
use crate::image::{fields, le_bytes, Buffers, Image};
use crate::judge::Answer;
use crate::repetition::{read, write, Style};
use std::fmt::Write;

/// A line of bytes: their number, the whole u32 fields, and, on a line of its own, what is left.
fn bytes_line(name: &str, tail: &str, bytes: &[u8], style: Style) -> String {
    let values: Vec<i64> = fields(bytes).into_iter().map(i64::from).collect();
    let mut text = format!("{name} {}{}\n", bytes.len(), write(&values, style));
    let left = &bytes[4 * values.len()..];
    if !left.is_empty() {
        let digits: String = left.iter().map(|byte| format!("{byte:02x}")).collect();
        writeln!(text, "{tail} {digits}").unwrap();
    }
    text
}

/// A line of records: their number and their values.
fn records_line<const WIDTH: usize>(name: &str, records: &[[i32; WIDTH]], repeat: bool) -> String {
    let values: Vec<i64> = records.iter().flatten().map(|value| i64::from(*value)).collect();
    format!("{name} {}{}\n", records.len(), write(&values, Style { width: WIDTH, hex: false, repeat }))
}

/// A call's refusal number and figure.
fn outcome(outcome: Outcome) -> String {
    match outcome {
        Ok(records) => format!("0 {records}"),
        Err(refused) => format!("{} {}", refused.refusal as u32, refused.figure),
    }
}

fn answer_lines(answer: &Answer, repeat: bool) -> String {
    records_line("R", &answer.roles, repeat)
        + &records_line("B", &answer.bindings, repeat)
        + &records_line("D", &answer.diagnostics, repeat)
}

/// An image without its answers.
fn write_image(image: &Image) -> String {
    let repeat = !image.is_small();
    let Buffers { roles, bindings, diagnostics } = image.buffers;
    format!("image {}\nincoming {} {}\n", image.label, image.warnings, image.errors)
        + &bytes_line("table", "tail", &image.table, Style { width: 5, hex: false, repeat })
        + &bytes_line("words", "wtail", &image.words, Style { width: 1, hex: true, repeat })
        + &format!("buffers {roles} {bindings} {diagnostics}\n")
}

/// An image with its answers, and the blank line after it.
pub fn write_record(image: &Image, calls: &Calls) -> String {
    let verdict = match (&calls.check, &calls.answer) {
        (Ok(_), Some(answer)) => format!("{:?}", answer.verdict),
        _ => "-".to_string(),
    };
    let answers = calls.answer.as_ref().map_or(String::new(), |answer| answer_lines(answer, !image.is_small()));
    write_image(image)
        + &format!("roles {}\n", outcome(calls.roles))
        + &format!("bindings {}\n", outcome(calls.bindings))
        + &format!("check {} {verdict}\n", outcome(calls.check))
        + &answers
        + "\n"
}

/// A value as a u32 field.
fn field(value: i64) -> u32 {
    u32::try_from(value).unwrap_or_else(|_| panic!("not a u32: {value}"))
}

/// The numbers of a line of `COUNT` numbers.
fn numbers<const COUNT: usize>(items: &str) -> [i64; COUNT] {
    read(items, 10).try_into().unwrap_or_else(|_| panic!("not {COUNT} numbers: {items}"))
}

/// The bytes of a line of fields.
fn field_bytes(items: &str, radix: u32) -> Vec<u8> {
    let (len, items) = items.split_once(' ').unwrap_or((items, ""));
    let fields: Vec<u32> = read(items, radix).into_iter().map(field).collect();
    let bytes = le_bytes(&fields);
    assert_eq!(bytes.len(), len.parse::<usize>().expect("a length") / 4 * 4, "as many fields as the length says");
    bytes
}

/// The bytes of hexadecimal digits.
fn hex_bytes(digits: &str) -> Vec<u8> {
    let pair = |i: usize| u8::from_str_radix(&digits[i..i + 2], 16).expect("hexadecimal digits");
    (0..digits.len()).step_by(2).map(pair).collect()
}

/// The image of one record; lines of answers are passed over.
fn read_record(record: &str) -> Image {
    let mut image = Image::default();
    for line in record.lines() {
        let (name, rest) = line.split_once(' ').expect("a name and a space");
        match name {
            "image" => image.label = rest.to_string(),
            "incoming" => [image.warnings, image.errors] = numbers(rest).map(field),
            "table" => image.table = field_bytes(rest, 10),
            "tail" => image.table.extend(hex_bytes(rest)),
            "words" => image.words = field_bytes(rest, 16),
            "wtail" => image.words.extend(hex_bytes(rest)),
            "buffers" => {
                let [roles, bindings, diagnostics] = numbers(rest).map(|len| usize::try_from(len).expect("a length"));
                image.buffers = Buffers { roles, bindings, diagnostics };
            }
            "roles" | "bindings" | "check" | "R" | "B" | "D" => {}
            _ => panic!("not a line of an image: {line}"),
        }
    }
    image
}

/// The images of a text, with or without answers.
pub fn read_images(text: &str) -> impl Iterator<Item = Image> + '_ {
    text.split("\n\n").filter(|record| !record.trim().is_empty()).map(|record| read_record(record.trim_matches('\n')))
}
