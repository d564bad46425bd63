//! What the three calls answer for an image and its buffers.
use crate::image::{Buffers, Image, BINDING_BYTES, DIAGNOSTIC_BYTES};
use crate::judge::{judge, Answer};
use crate::refusal::{image_refusal, records_refusal, roles_refusal, Refused};

/// A call's answer: its refusal, or the number of its records.
pub type Outcome = Result<usize, Refused>;

/// The answers of the three calls, and luad's answer where none of the refusals 1 to 6 applies.
#[derive(Debug, Clone, PartialEq, Eq)]
pub struct Calls {
    pub roles: Outcome,
    pub bindings: Outcome,
    pub check: Outcome,
    pub answer: Option<Answer>,
}

/// luad's answer, where none of the refusals 1 to 6 applies.
pub fn answer(image: &Image) -> Option<Answer> {
    image_refusal(&image.table, &image.words).is_none().then(|| judge(image))
}

fn outcome(refused: Option<Refused>, records: usize) -> Outcome {
    refused.map_or(Ok(records), Err)
}

/// What the roles, bindings and check calls answer with such buffers, given the numbers of their records.
pub fn outcomes(image: &Image, buffers: Buffers, [words, bindings, diagnostics]: [usize; 3]) -> [Outcome; 3] {
    let roles = roles_refusal(&image.table, &image.words, buffers.roles);
    [
        outcome(roles, words),
        outcome(roles.or(records_refusal(bindings, BINDING_BYTES, buffers.bindings)), bindings),
        outcome(roles.or(records_refusal(diagnostics, DIAGNOSTIC_BYTES, buffers.diagnostics)), diagnostics),
    ]
}

/// What the calls answer, given luad's answer.
pub fn calls_for(image: &Image, answer: Option<Answer>) -> Calls {
    let records = answer.as_ref().map_or([0; 3], |answer| {
        let Answer { roles, bindings, diagnostics, .. } = answer;
        [roles.len(), bindings.len(), diagnostics.len()]
    });
    let [roles, bindings, check] = outcomes(image, image.buffers, records);
    Calls { roles, bindings, check, answer }
}

/// What the calls answer.
pub fn calls(image: &Image) -> Calls {
    calls_for(image, answer(image))
}
