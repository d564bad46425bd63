//! Wrong lists of diagnostics.
use super::layout::Layout;
use super::verdicts::verdict;
use super::{changed, Flaw, Variant};
use answers::image::Image;
use answers::judge::Answer;
use answers::limits::DIAGNOSTIC_LIMIT;
use answers::message::CODES;
use answers::word::op;
use std::cmp::Reverse;

/// Whether a diagnostic is about a companion.
fn at_companion(layout: &Layout, answer: &Answer, [row, pc, ..]: [i32; 4]) -> bool {
    pc >= 0 && answer.roles[layout.first_word[row as usize] + pc as usize][0] >= 0
}

/// Drops the diagnostics of a code, at companions or elsewhere.
fn drop_code(image: &Image, answer: &mut Answer, code: i32, companions: bool) {
    if answer.diagnostics.iter().any(|diagnostic| diagnostic[2] == code) {
        let layout = Layout::of(image);
        let mut kept = answer.diagnostics.clone();
        kept.retain(|diagnostic| diagnostic[2] != code || at_companion(&layout, answer, *diagnostic) != companions);
        answer.diagnostics = kept;
    }
}

/// Puts other codes in place of two, at executable words.
fn swap_codes(image: &Image, answer: &mut Answer, first: i32, second: i32) {
    let layout = Layout::of(image);
    let other = |diagnostic: &[i32; 4]| {
        let [row, pc, code, value] = *diagnostic;
        let code = match code {
            _ if at_companion(&layout, answer, *diagnostic) => code,
            _ if code == first => second,
            _ if code == second => first,
            _ => code,
        };
        [row, pc, code, value]
    };
    answer.diagnostics = answer.diagnostics.iter().map(other).collect();
}

/// Exchanges neighbours of the same row that have these codes in this order, and the same pc if so wanted.
fn exchange(answer: &mut Answer, before: &[i32], after: i32, same_pc: bool) {
    for at in 1..answer.diagnostics.len() {
        let [a, b] = [answer.diagnostics[at - 1], answer.diagnostics[at]];
        if a[0] == b[0] && (a[1] == b[1] || !same_pc) && before.contains(&a[2]) && b[2] == after {
            answer.diagnostics.swap(at - 1, at);
        }
    }
}

fn row_0_alone(image: &Image, answer: &mut Answer) {
    answer.diagnostics.retain(|diagnostic| diagnostic[0] == 0);
    answer.verdict = verdict(image, answer);
}

/// Ends the list at 10,000, also inside a word's diagnostics.
fn cut_at_limit(image: &Image, answer: &mut Answer) {
    let incoming = image.warnings as usize + image.errors as usize;
    answer.diagnostics.truncate(DIAGNOSTIC_LIMIT.saturating_sub(incoming));
}

/// Whether a word skips.
fn skips(word: u32) -> bool {
    let opcode = word & 0x3f;
    matches!(opcode, op::EQ..=op::LE | op::TEST | op::TESTSET | op::TFORLOOP)
        || opcode == op::LOADBOOL && word >> 14 & 0x1ff != 0
}

/// Adds code 6 where a skip goes past the last word.
fn report_skip_past_end(image: &Image, answer: &mut Answer) {
    let layout = Layout::of(image);
    for row in 0..layout.rows.len() {
        let code = layout.code(row);
        for pc in code.len().saturating_sub(2)..code.len() {
            if skips(code[pc]) && answer.roles[layout.first_word[row] + pc][0] < 0 {
                let added = [row as i32, pc as i32, 6, pc as i32 + 2];
                let later = |[at, place, code, _]: &[i32; 4]| {
                    *at > added[0] || *at == added[0] && *code > 3 && *place >= added[1]
                };
                let at = answer.diagnostics.iter().position(later).unwrap_or(answer.diagnostics.len());
                answer.diagnostics.insert(at, added);
            }
        }
    }
}

/// Code 6 for jumps alone, or for skips alone, is left out.
fn drop_jumps(image: &Image, answer: &mut Answer, jumps: bool) {
    let layout = Layout::of(image);
    let is_jump = |row: i32, pc: i32| !skips(layout.code(row as usize)[pc as usize]);
    answer.diagnostics.retain(|[row, pc, code, _]| *code != 6 || is_jump(*row, *pc) != jumps);
}

/// The value of one code is one more.
fn value_off_by_one(code: i32) -> Variant {
    let change = move |_: &Image, answer: &mut Answer| {
        answer.diagnostics.iter_mut().filter(|diagnostic| diagnostic[2] == code).for_each(|found| found[3] += 1);
    };
    Variant { name: format!("value of code {code} one more"), flaw: Flaw::Answer(Box::new(change)) }
}

/// Wrong in their order.
fn orders() -> Vec<Variant> {
    vec![
        changed("code 3 before codes 1 and 2", |_, answer| exchange(answer, &[1, 2], 3, false)),
        changed("code 11 before code 10", |_, answer| exchange(answer, &[10], 11, true)),
        changed("code 13 before code 12", |_, answer| exchange(answer, &[12], 13, true)),
        changed("codes 1 and 2 at their words", |_, answer| {
            answer.diagnostics.sort_by_key(|[row, pc, code, _]| (*row, *pc, *code));
        }),
        changed("children before their parents", |_, answer| {
            answer.diagnostics.sort_by_key(|[row, ..]| Reverse(*row));
        }),
        changed("a CALL's second span first", |_, answer| {
            let ends = |pair: &[[i32; 4]]| pair[0][..3] == pair[1][..3] && pair[0][2] == 11;
            for at in 1..answer.diagnostics.len() {
                if ends(&answer.diagnostics[at - 1..=at]) {
                    answer.diagnostics.swap(at - 1, at);
                }
            }
        }),
    ]
}

pub fn variants() -> Vec<Variant> {
    let mut all = orders();
    all.extend([
        changed("row 0 alone judged", row_0_alone),
        changed("codes 12 and 13 confused", |image, answer| swap_codes(image, answer, 12, 13)),
        changed("codes 14 and 15 confused", |image, answer| swap_codes(image, answer, 14, 15)),
        changed("code 17 missing", |image, answer| drop_code(image, answer, 17, true)),
        changed("code 12 missing at companions", |image, answer| drop_code(image, answer, 12, true)),
        changed("code 8 missing at companions", |image, answer| drop_code(image, answer, 8, true)),
        changed("code 8 missing at instructions", |image, answer| drop_code(image, answer, 8, false)),
        changed("code 6 missing for jumps", |image, answer| drop_jumps(image, answer, true)),
        changed("code 6 missing for skips", |image, answer| drop_jumps(image, answer, false)),
        changed("a skip past the end reported", report_skip_past_end),
        changed("cut at 10,000 inside a word", cut_at_limit),
        changed("the same diagnostic once only", |_, answer| answer.diagnostics.dedup()),
        changed("opcode of an unknown binding word as value", |image, answer| {
            let layout = Layout::of(image);
            for [row, pc, code, value] in &mut answer.diagnostics {
                if *code == 17 && *value == -1 {
                    *value = (layout.code(*row as usize)[*pc as usize] & 0x3f) as i32;
                }
            }
        }),
    ]);
    all.extend((1..=CODES.len() as i32).map(value_off_by_one));
    all
}
