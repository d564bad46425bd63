//! `compare full SEED` and `compare quick SEED` make many images, let luad's published Rust judge each, and compare the
//! calls of libluad51.a with it: results and every byte of the buffers. `compare sharpness SEED` compares wrong answers
//! on the images of the quick run, and each must be told from luad's. `compare runs SEED COUNT` makes that many random
//! executions of images that the archive finds valid, none of which may meet or do what document 01 forbids; `compare
//! runs-sharpness SEED` plants violations, each of which must be noticed. The exit status is 1 where something differs or
//! violates, where a code, a verdict, a refusal or a kind of step did not occur, or where a wrong answer was not told.
mod buffer;
mod case;
mod comparer;
mod executions;
mod kinds;
mod library;
mod reduce;
mod run;
mod sharpness;
mod tally;
mod wrong;

use kinds::Scale;
use library::Archive;
use std::process::ExitCode;

fn main() -> ExitCode {
    let arguments: Vec<String> = std::env::args().skip(1).collect();
    let seed = |text: &str| text.parse().expect("a seed");
    let good = match &arguments.iter().map(String::as_str).collect::<Vec<_>>()[..] {
        ["full", number] => run::run(Scale::Full, seed(number)),
        ["quick", number] => run::run(Scale::Quick, seed(number)),
        ["sharpness", number] => sharpness::run(seed(number)),
        ["runs", number, count] => executions::run(&mut Archive, seed(number), count.parse().expect("a number")),
        ["runs-sharpness", number] => executions::sharpness(&mut Archive, seed(number)),
        _ => panic!("compare full, quick, sharpness or runs-sharpness, and a seed, or runs, a seed and a number"),
    };
    if good {
        ExitCode::SUCCESS
    } else {
        ExitCode::FAILURE
    }
}
