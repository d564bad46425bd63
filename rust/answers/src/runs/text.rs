//! The text format of runs, described in tests/answers/README.md.
use super::Run;
use crate::execution::{execute, named, Choice, End, Execution, Prototype};
use std::fmt::Display;

/// A line: a name, how many items, and each of them after a space.
fn line<T: Display>(name: &str, items: impl IntoIterator<Item = T>) -> String {
    let items: Vec<String> = items.into_iter().map(|item| format!(" {item}")).collect();
    format!("{name} {}{}\n", items.len(), items.concat())
}

/// How an execution stands at its end, by name and pc.
fn end(execution: Option<&Execution>) -> String {
    match execution.map(|execution| execution.end) {
        None => "none".to_string(),
        Some(End::Return(pc)) => format!("return {pc}"),
        Some(End::TailCall(pc)) => format!("tailcall {pc}"),
        Some(End::Left(pc)) => format!("left {pc}"),
        Some(End::GaveOut(pc)) => format!("gave-out {pc}"),
    }
}

/// The pcs that an execution meets, each once and in ascending order: those of companions, and those of executable words
/// that name an operand that is not inside.
pub fn companions_and_outside(prototype: &Prototype, execution: Option<&Execution>) -> [Vec<usize>; 2] {
    let companions = prototype.companions();
    let is_outside = |pc: &usize| named(prototype, *pc).iter().any(|operand| !operand.is_inside(prototype));
    let met = |pc: &usize| execution.is_some_and(|execution| execution.met.contains(pc));
    let (owned, executable): (Vec<usize>, Vec<usize>) =
        (0..prototype.words.len()).filter(met).partition(|pc| companions[*pc]);
    [owned, executable.into_iter().filter(is_outside).collect()]
}

/// A run with its answer, and the blank line after it.
pub fn write_run(run: &Run) -> String {
    let Prototype { constants, upvalues, stack, children, words } = &run.prototype;
    let execution = execute(&run.prototype, &run.choices);
    let met = execution.as_ref().map_or(&[][..], |execution| &execution.met);
    let [companions, outside] = companions_and_outside(&run.prototype, execution.as_ref());
    format!("run {}\nprototype {constants} {upvalues} {stack}\n", run.label)
        + &line("children", children)
        + &line("words", words.iter().map(|word| format!("{word:08x}")))
        + &line("choices", run.choices.iter().map(|choice| u32::from(*choice == Choice::Off)))
        + &line("met", met)
        + &format!("end {}\n", end(execution.as_ref()))
        + &line("companions", companions)
        + &line("outside", outside)
        + "\n"
}
