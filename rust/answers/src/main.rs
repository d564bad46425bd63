//! `answers list [small|large|all [SEED]]` writes the list of images with luad's answers, by default the fixed one,
//! and `answers list short` every short code; `answers counts` with the same arguments counts over it; `answers judge`
//! reads images in the same format and writes them with luad's answers; `answers packcheck` reads a listing and writes
//! what the program packcheck must print. `answers listings DIR` writes the stored listings and what packcheck must
//! print for them, as NAME.in and NAME.out, `answers long DIR` long inputs, and `answers random-listings SEED COUNT DIR`
//! random ones; each counts the answers. `answers runs [SEED]` writes the list of prototypes with choices and what their
//! executions meet, by default the fixed one, and `answers run-counts [SEED]` counts over it.
use answers::calls::{calls, Calls};
use answers::counts::Counts;
use answers::families::{self, SEED};
use answers::image::Image;
use answers::listings::{long, random, stored, Listing};
use answers::packcheck::packcheck;
use answers::runs::{self, text::write_run};
use answers::text::{read_images, write_record};
use std::collections::BTreeMap;
use std::io::{self, Read, Write};
use std::path::Path;

const USAGE: &str = "answers list or counts [short, or small|large|all [SEED]], judge, packcheck, listings DIR, \
    long DIR, random-listings SEED COUNT DIR, or runs or run-counts [SEED]";

/// The seed that an argument gives, if there is one, or else that of the fixed list.
fn seed(arg: Option<&&str>) -> u64 {
    arg.map_or(SEED, |seed| seed.parse().expect("a seed"))
}

/// Hands on the images that the arguments name: a list, by default the whole fixed one, and its seed.
fn each(args: &[&str], visit: &mut dyn FnMut(&Image, &Calls)) {
    let seed = seed(args.get(1));
    match args {
        ["short"] => families::short(visit),
        ["small"] | ["small", _] => families::small(seed, visit),
        ["large"] | ["large", _] => families::large(seed, visit),
        [] | ["all"] | ["all", _] => {
            families::small(seed, visit);
            families::large(seed, visit);
        }
        _ => panic!("{USAGE}"),
    }
}

fn input() -> Vec<u8> {
    let mut bytes = Vec::new();
    io::stdin().read_to_end(&mut bytes).expect("standard input");
    bytes
}

/// What an output is counted as: its refusal, or its verdict and whether there are diagnostics.
fn kind(output: &str) -> String {
    let last = output.lines().last().expect("a line of output");
    let (answer, figure) = last.rsplit_once(' ').expect("a figure");
    if answer.starts_with("refused") || figure == "0" {
        answer.to_string()
    } else {
        format!("{answer} with diagnostics")
    }
}

/// Writes listings and their outputs into a directory, and counts the outputs.
fn write_listings(dir: &str, listings: Vec<Listing>) -> String {
    std::fs::create_dir_all(dir).expect("a directory");
    let mut counts = BTreeMap::new();
    for (name, input) in listings {
        let output = packcheck(&input);
        *counts.entry(kind(&output)).or_insert(0) += 1;
        let path = |end: &str| Path::new(dir).join(format!("{name}.{end}"));
        std::fs::write(path("in"), input).expect("a file");
        std::fs::write(path("out"), output).expect("a file");
    }
    counts.into_iter().map(|(kind, count): (String, usize)| format!("{kind}: {count}\n")).collect()
}

fn main() {
    let args: Vec<String> = std::env::args().skip(1).collect();
    let args: Vec<&str> = args.iter().map(String::as_str).collect();
    let mut out = io::BufWriter::new(io::stdout().lock());
    let mut put = |text: String| out.write_all(text.as_bytes()).expect("standard output");
    match &args[..] {
        ["list", args @ ..] => each(args, &mut |image, calls| put(write_record(image, calls))),
        ["counts", args @ ..] => {
            let mut counts = Counts::default();
            each(args, &mut |image, calls| counts.add(image, calls));
            put(counts.to_string());
        }
        ["judge"] => {
            let text = String::from_utf8(input()).expect("text");
            read_images(&text).for_each(|image| put(write_record(&image, &calls(&image))));
        }
        ["packcheck"] => put(packcheck(&input())),
        ["listings", dir] => put(write_listings(dir, stored())),
        ["long", dir] => put(write_listings(dir, long())),
        ["random-listings", seed, count, dir] => {
            let (seed, count) = (seed.parse().expect("a seed"), count.parse().expect("a number"));
            put(write_listings(dir, random(seed, count)));
        }
        ["runs"] | ["runs", _] => runs::each(seed(args.get(1)), &mut |run| put(write_run(run))),
        ["run-counts"] | ["run-counts", _] => {
            let mut counts = runs::counts::Counts::default();
            runs::each(seed(args.get(1)), &mut |run| counts.add(run));
            put(counts.to_string());
        }
        _ => panic!("{USAGE}"),
    }
}
