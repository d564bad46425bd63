//! Wrong verdicts.
use super::{changed, Variant};
use answers::image::Image;
use answers::judge::Answer;
use answers::limits::DIAGNOSTIC_LIMIT;
use luad::diagnostic::Verdict;

/// Incoming and new diagnostics.
fn total(image: &Image, answer: &Answer) -> usize {
    image.warnings as usize + image.errors as usize + answer.diagnostics.len()
}

/// Whether there is a new error.
fn has_error(answer: &Answer) -> bool {
    answer.diagnostics.iter().any(|[_, _, code, _]| *code != 3)
}

/// The verdict of the incoming numbers and the diagnostics that the answer now has.
pub fn verdict(image: &Image, answer: &Answer) -> Verdict {
    match (image.errors > 0 || has_error(answer), total(image, answer) >= DIAGNOSTIC_LIMIT) {
        (true, _) => Verdict::Invalid,
        (false, true) => Verdict::Incomplete,
        (false, false) => Verdict::ValidForParser,
    }
}

fn ignore_incoming_errors(image: &Image, answer: &mut Answer) {
    if image.errors > 0 && !has_error(answer) {
        let reached = total(image, answer) >= DIAGNOSTIC_LIMIT;
        answer.verdict = if reached { Verdict::Incomplete } else { Verdict::ValidForParser };
    }
}

pub fn variants() -> Vec<Variant> {
    vec![
        changed("verdict always Invalid", |_, answer| answer.verdict = Verdict::Invalid),
        changed("verdict always ValidForParser", |_, answer| answer.verdict = Verdict::ValidForParser),
        changed("Incomplete where an error and the limit meet", |image, answer| {
            if total(image, answer) >= DIAGNOSTIC_LIMIT {
                answer.verdict = Verdict::Incomplete;
            }
        }),
        changed("ValidForParser where Incomplete at 10,000", |image, answer| {
            if answer.verdict == Verdict::Incomplete && total(image, answer) == DIAGNOSTIC_LIMIT {
                answer.verdict = Verdict::ValidForParser;
            }
        }),
        changed("Incomplete at 10,000 where nothing was left", |image, answer| {
            answer.verdict = verdict(image, answer);
        }),
        changed("incoming errors ignored", ignore_incoming_errors),
        changed("incoming warnings taken for errors", |image, answer| {
            if image.warnings > 0 {
                answer.verdict = Verdict::Invalid;
            }
        }),
        changed("code 3 counted as an error", |_, answer| {
            if answer.diagnostics.iter().any(|[_, _, code, _]| *code == 3) {
                answer.verdict = Verdict::Invalid;
            }
        }),
    ]
}
