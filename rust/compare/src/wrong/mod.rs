//! Deliberately wrong answers: luad's with one flaw, or given with a flaw in refusals and buffers.
mod bindings;
mod diagnostics;
mod layout;
mod model;
mod protocol;
mod roles;
mod verdicts;

use answers::image::Image;
use answers::judge::Answer;
pub use model::Model;
pub use protocol::Protocol;

/// A change of luad's answer for an image.
pub type Change = Box<dyn Fn(&Image, &mut Answer)>;

/// What is wrong.
pub enum Flaw {
    Answer(Change),
    Protocol(Protocol),
}

pub struct Variant {
    pub name: String,
    pub flaw: Flaw,
}

/// A variant whose answers are changed.
fn changed(name: &str, change: fn(&Image, &mut Answer)) -> Variant {
    Variant { name: name.to_string(), flaw: Flaw::Answer(Box::new(change)) }
}

/// All variants.
pub fn variants() -> Vec<Variant> {
    let mut all = verdicts::variants();
    all.extend(diagnostics::variants());
    all.extend(roles::variants());
    all.extend(bindings::variants());
    all.extend(protocol::variants());
    all
}
