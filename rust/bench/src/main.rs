//! `bench` times reading and splitting words; `bench all [STEP]` compares the split of every word, or of every STEP-th,
//! with luad's. `bench calls` times the calls of luad51 and luad on the same images, and how the times grow with the
//! words; `bench calls roles`, `bindings` or `check` only one call. `bench roles compare`, and so for the other calls,
//! only compares. The exit status is 1 where a call's answer is not luad's.
mod calls;
mod timing;
mod words;

use std::process::ExitCode;

fn run(arguments: &[&str]) -> Result<(), String> {
    match arguments {
        [] => words::time(),
        ["all"] => words::all(1),
        ["all", step] => words::all(step.parse().unwrap()),
        ["calls"] => calls::times::run(None)?,
        ["calls", call @ ("roles" | "bindings" | "check")] => calls::times::run(Some(call))?,
        ["roles", "compare"] => calls::compare::roles()?,
        ["bindings", "compare"] => calls::compare::bindings()?,
        ["check", "compare"] => calls::compare::check()?,
        _ => panic!("bench, bench all [STEP], bench calls [CALL], or bench CALL compare; CALL: roles, bindings, check"),
    }
    Ok(())
}

fn main() -> ExitCode {
    let arguments: Vec<String> = std::env::args().skip(1).collect();
    match run(&arguments.iter().map(String::as_str).collect::<Vec<_>>()) {
        Ok(()) => ExitCode::SUCCESS,
        Err(difference) => {
            eprintln!("{difference}");
            ExitCode::FAILURE
        }
    }
}
