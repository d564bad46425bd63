//! Sequences of numbers as items on one line, with repetition for long ones.
//!
//! An item is `v`, `v*k` (v, k times), `(a b c)*k` (the group k times) or `(a b c)+(x y z)*k` (k groups, each next one
//! with the deltas added to the one before).

/// How a sequence is written.
#[derive(Clone, Copy)]
pub struct Style {
    /// Values in one record; groups are whole records.
    pub width: usize,
    /// Eight hexadecimal digits and no deltas, instead of decimal.
    pub hex: bool,
    /// Whether repetition is used at all.
    pub repeat: bool,
}

/// Records in one group at most.
const LONGEST_GROUP: usize = 8;

fn show(value: i64, hex: bool) -> String {
    if hex {
        format!("{value:08x}")
    } else {
        value.to_string()
    }
}

fn show_all(values: &[i64], hex: bool) -> String {
    values.iter().map(|value| show(*value, hex)).collect::<Vec<_>>().join(" ")
}

/// How many groups of `len` values stand at the start, each differing from the one before by the same deltas.
fn groups(values: &[i64], len: usize, hex: bool) -> (usize, Vec<i64>) {
    if values.len() < 2 * len {
        return (1, vec![0; len]);
    }
    let deltas: Vec<i64> = (0..len).map(|i| values[len + i] - values[i]).collect();
    if hex && deltas.iter().any(|delta| *delta != 0) {
        return (1, vec![0; len]);
    }
    let follows = |k: &usize| (0..len).all(|i| values[k * len + i] - values[(k - 1) * len + i] == deltas[i]);
    let count = 1 + (1..values.len() / len).take_while(follows).count();
    (count, deltas)
}

/// The group at the start that covers the most values: its length, how often it stands there, and its deltas.
fn best(values: &[i64], style: Style) -> Option<(usize, usize, Vec<i64>)> {
    let mut best: Option<(usize, usize, Vec<i64>)> = None;
    for records in 1..=LONGEST_GROUP {
        let len = records * style.width;
        let (count, deltas) = groups(values, len, style.hex);
        let covered = best.as_ref().map_or(0, |(len, count, _)| len * count);
        if count >= 4 && len * count > covered {
            best = Some((len, count, deltas));
        }
    }
    best
}

fn show_group(group: &[i64], count: usize, deltas: &[i64], hex: bool) -> String {
    let still = deltas.iter().all(|delta| *delta == 0);
    match group {
        [value] if still => format!("{}*{count}", show(*value, hex)),
        _ if still => format!("({})*{count}", show_all(group, hex)),
        _ => format!("({})+({})*{count}", show_all(group, hex), show_all(deltas, false)),
    }
}

/// The items of a sequence, each after a space.
pub fn write(values: &[i64], style: Style) -> String {
    let mut text = String::new();
    let mut rest = values;
    while !rest.is_empty() {
        let found = if style.repeat { best(rest, style) } else { None };
        text.push(' ');
        if let Some((len, count, deltas)) = found {
            text += &show_group(&rest[..len], count, &deltas, style.hex);
            rest = &rest[len * count..];
        } else {
            let len = style.width.min(rest.len());
            text += &show_all(&rest[..len], style.hex);
            rest = &rest[len..];
        }
    }
    text
}

fn number(text: &str, radix: u32) -> i64 {
    i64::from_str_radix(text, radix).unwrap_or_else(|_| panic!("not a number: {text}"))
}

fn numbers(text: &str, radix: u32) -> Vec<i64> {
    text.split(' ').map(|value| number(value, radix)).collect()
}

/// Splits a group's inside off a text that begins after its opening parenthesis.
fn group(text: &str, radix: u32) -> (Vec<i64>, &str) {
    let (inside, rest) = text.split_once(')').expect("a closing parenthesis");
    (numbers(inside, radix), rest)
}

/// The sequence that items separated by spaces stand for.
pub fn read(text: &str, radix: u32) -> Vec<i64> {
    let mut values = Vec::new();
    let mut rest = text.trim_start();
    while !rest.is_empty() {
        let (mut item, after) = match rest.strip_prefix('(') {
            Some(inside) => group(inside, radix),
            None => {
                let end = rest.find(['*', ' ']).unwrap_or(rest.len());
                (vec![number(&rest[..end], radix)], &rest[end..])
            }
        };
        let (deltas, after) = match after.strip_prefix("+(") {
            Some(inside) => group(inside, 10),
            None => (vec![0; item.len()], after),
        };
        let end = after.find(' ').unwrap_or(after.len());
        let count = after[..end].strip_prefix('*').map_or(1, |count| number(count, 10));
        for _ in 0..count {
            values.extend(&item);
            item.iter_mut().zip(&deltas).for_each(|(value, delta)| *value += delta);
        }
        rest = after[end..].trim_start();
    }
    values
}
