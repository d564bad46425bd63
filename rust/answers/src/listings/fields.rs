//! The sample with each of its seven decimals written in another way or replaced.
use super::{sample_lines, Listing};

/// The lines of decimals, counted from 0, and the names of their fields.
const LINES: [(usize, &str); 2] = [(1, "warnings errors"), (3, "depth words constants upvalues stack")];

/// Texts before a field.
const BEFORE: [(&str, &str); 3] = [("leading-zero", "0"), ("plus", "+"), ("minus", "-")];

/// Numbers in place of a field, which are their names.
const NUMBERS: [&str; 6] =
    ["4294967295", "4294967296", "4294967297", "9999999999", "10000000000", "18446744073709551616"];

/// The texts that take the place of a field, by name.
fn replacements(field: &str) -> Vec<(&'static str, String)> {
    let mut texts = vec![("empty", String::new())];
    texts.extend(BEFORE.map(|(name, before)| (name, format!("{before}{field}"))));
    texts.extend(NUMBERS.map(|number| (number, number.to_string())));
    texts
}

/// Each replacement of each field.
pub fn fields() -> Vec<Listing> {
    let mut listings = Vec::new();
    for (at, names) in LINES {
        let line = String::from_utf8(sample_lines().swap_remove(at)).expect("a line of text");
        let fields: Vec<&str> = line.trim_end().split(' ').collect();
        for (column, name) in names.split(' ').enumerate() {
            for (what, text) in replacements(fields[column]) {
                let mut fields = fields.clone();
                fields[column] = &text;
                let mut lines = sample_lines();
                lines[at] = (fields.join(" ") + "\n").into_bytes();
                listings.push((format!("{name}-{what}"), lines.concat()));
            }
        }
    }
    listings
}
