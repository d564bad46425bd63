//! Times of the three calls and of luad's work of the same kind, on the same images.
use super::case::Case;
use super::images::{GROWTH, TIMED};
use super::table::Table;
use crate::timing::{rounds, Times, ROUNDS};

/// One of our calls and what luad does for the same answer.
struct Pair {
    /// The call, and what sets this pair apart from the first one of that call. Of a variant only the ratio is shown.
    call: &'static str,
    variant: Option<&'static str>,
    ours: fn(&mut Case),
    luad: fn(&mut Case),
    /// Whether it is timed on an image.
    applies: fn(&Case) -> bool,
}

const PAIRS: [Pair; 5] = [
    Pair { call: "roles", variant: None, ours: |case| _ = case.roles(), luad: Case::luad_roles, applies: |_| true },
    Pair {
        call: "bindings",
        variant: None,
        ours: |case| _ = case.bindings(),
        luad: Case::luad_bindings,
        applies: |_| true,
    },
    Pair { call: "check", variant: None, ours: |case| _ = case.check(), luad: Case::luad_check, applies: |_| true },
    Pair {
        call: "check",
        variant: Some("exact fit"),
        ours: |case| _ = case.check_exact(),
        luad: Case::luad_check,
        applies: |case| case.diagnostics() > 0,
    },
    Pair {
        call: "check",
        variant: Some("all roles"),
        ours: |case| _ = case.check(),
        luad: Case::luad_check_and_roles,
        applies: |case| case.reached() < case.rows(),
    },
];

/// What the tables show, told before them.
const LEGEND: &str = "\
Ours and luad by turns: medians of the rounds, and the ratio ours by luad with the least and the greatest of a round;
below 1 ours is faster. luad's model of an image is made beforehand.
roles: luad's discover_roles_lua51 on every prototype
bindings: that and a transcription of the loop at the end of load_proto_51, which luad has only inside its loading
check: luad's validate_chunk_lua51, which finds the roles of the prototypes that it comes to; ours has room for 10255
  diagnostics and walks once
exact fit: ours has room for just the diagnostics and walks twice; timed where there are any
all roles: where the diagnostic limit ends the check early, luad looks only at what comes before and gives no roles of
  the prototypes after it, and ours gives all roles; here luad finds those roles too";

/// An image's times, by the pairs; `None` where one does not apply.
struct Line {
    name: String,
    times: Vec<Option<Times>>,
}

/// The pairs of one call, or all.
fn pairs(call: Option<&str>) -> Vec<&'static Pair> {
    PAIRS.iter().filter(|pair| call.is_none_or(|call| call == pair.call)).collect()
}

/// Says where an answer of ours is not luad's.
fn compare(case: &mut Case) -> Result<(), String> {
    case.compare_roles()?;
    case.compare_bindings()?;
    case.compare_check()
}

/// Times the pairs on an image.
fn time(case: &mut Case, pairs: &[&Pair]) -> Vec<Option<Times>> {
    pairs.iter().map(|pair| (pair.applies)(case).then(|| rounds(case, pair.ours, pair.luad))).collect()
}

/// The names of the columns: those given, and for each pair our time, luad's and their ratio.
fn names(front: &[&str], pairs: &[&Pair], unit: &str) -> Vec<String> {
    let mut names: Vec<String> = front.iter().map(|name| name.to_string()).collect();
    for pair in pairs {
        match pair.variant {
            None => names.extend([format!("{}, {unit}", pair.call), "luad".into(), "ratio".into()]),
            Some(variant) => names.push(variant.into()),
        }
    }
    names
}

/// A ratio with the least and the greatest.
fn ratio(times: &Times) -> String {
    let [ratio, least, greatest] = [times.ratio, times.least, times.greatest].map(|ratio| match ratio < 10.0 {
        true => format!("{ratio:.2}"),
        false => format!("{ratio:.0}"),
    });
    format!("{ratio} ({least}-{greatest})")
}

/// The cells of the pairs: our time and luad's, in a unit of `unit` seconds, and the ratio.
fn cells(pairs: &[&Pair], times: &[Option<Times>], unit: f64) -> Vec<String> {
    let mut cells = Vec::new();
    for (pair, times) in pairs.iter().zip(times) {
        if let (None, Some(Times { ours, theirs, .. })) = (pair.variant, times) {
            cells.extend([ours, theirs].map(|time| format!("{:.2}", time / unit)));
        }
        cells.push(times.as_ref().map(ratio).unwrap_or_default());
    }
    cells
}

/// Prints the table of all images in ms, and gives the times.
fn time_images(pairs: &[&Pair]) -> Result<Vec<Line>, String> {
    let mut table = Table::new(names(&["image", "rows", "words", "diagnostics", "upvalues"], pairs, "ms"));
    let (mut lines, mut limited) = (Vec::new(), Vec::new());
    for (name, make) in TIMED {
        let mut case = Case::new(name, make());
        compare(&mut case)?;
        let times = time(&mut case, pairs);
        let (rows, reached) = (case.rows(), case.reached());
        let counts = [rows, case.words(), case.diagnostics(), case.upvalues()];
        let front = std::iter::once(name.to_string()).chain(counts.map(|count| count.to_string()));
        table.add(front.chain(cells(pairs, &times, 1e-3)).collect());
        lines.push(Line { name: name.to_string(), times });
        if reached < rows {
            limited.push(format!(
                "{name}: the diagnostic limit ends the check, and luad comes to {reached} of {rows} rows"
            ));
        }
    }
    table.print();
    println!("\n{}", limited.join("\n"));
    Ok(lines)
}

/// Says of each pair on which images it is not faster than luad.
fn summarize(pairs: &[&Pair], lines: &[Line]) {
    for (at, Pair { call, variant, .. }) in pairs.iter().enumerate() {
        let timed: Vec<_> = lines.iter().filter_map(|line| Some((&line.name, line.times[at]?))).collect();
        if timed.is_empty() {
            continue;
        }
        let slower: Vec<_> = timed.iter().filter(|(_, times)| times.ratio >= 1.0).collect();
        let variant = variant.map(|variant| format!(", {variant}")).unwrap_or_default();
        println!("{call}{variant}: faster than luad on {} of {}", timed.len() - slower.len(), timed.len());
        slower.iter().for_each(|(name, times)| println!("  not on {name}: {}", ratio(times)));
    }
}

/// Prints how the times grow with the words, in ns a word, and gives the times.
fn time_growth(pairs: &[&Pair]) -> Result<Vec<Line>, String> {
    let mut table = Table::new(names(&["image", "words", "rows"], pairs, "ns a word"));
    let mut lines = Vec::new();
    for (name, make) in GROWTH {
        for words in [10_000, 100_000, 1_000_000] {
            let mut case = Case::new(name, make(words));
            compare(&mut case)?;
            let times = time(&mut case, pairs);
            let front = [name.to_string(), words.to_string(), case.rows().to_string()];
            table.add(front.into_iter().chain(cells(pairs, &times, 1e-9 * words as f64)).collect());
            lines.push(Line { name: format!("{name}, {words} words"), times });
        }
    }
    table.print();
    Ok(lines)
}

/// Times every call, or one.
pub fn run(call: Option<&str>) -> Result<(), String> {
    let pairs = pairs(call);
    println!("{LEGEND}\n{ROUNDS} rounds\n");
    let images = time_images(&pairs)?;
    println!();
    summarize(&pairs, &images);
    println!("\nHow the times grow with the words:\n");
    let growth = time_growth(&pairs)?;
    println!();
    summarize(&pairs, &growth);
    Ok(())
}
