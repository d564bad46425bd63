//! The stored runs are what the program makes, and cover what they must.
use answers::families::SEED;
use answers::runs::counts::{Counts, ENDS, KINDS, OTHERS};
use answers::runs::{self, text::write_run};

fn counts() -> Counts {
    let mut counts = Counts::default();
    runs::each(SEED, &mut |run| counts.add(run));
    counts
}

#[test]
fn the_stored_file_is_what_the_program_makes() {
    let mut text = String::new();
    runs::each(SEED, &mut |run| text += &write_run(run));
    let path = concat!(env!("CARGO_MANIFEST_DIR"), "/../../tests/answers/runs.txt");
    assert!(std::fs::read_to_string(path).expect("the stored file") == text, "answers runs > {path}");
}

#[test]
fn every_kind_of_word_is_met_with_both_choices_and_late_too() {
    let counts = counts();
    for kind in KINDS {
        let [[on, off], [late_on, late_off]] = counts.steps_from(kind);
        assert!(on >= 20 && off >= 20, "{kind}: {on} {off}");
        assert!(late_on >= 2 && late_off >= 2, "{kind}, late: {late_on} {late_off}");
    }
    assert_eq!(counts.steps.len(), KINDS.len());
}

#[test]
fn runs_stand_in_every_way_at_their_ends() {
    let counts = counts();
    for name in ENDS {
        assert!(counts.ends.get(name).is_some_and(|count| *count >= 20), "{name}");
    }
    for name in OTHERS {
        assert!(counts.others.get(name).is_some_and(|count| *count >= 20), "{name}");
    }
}

#[test]
fn lists_and_codes_have_every_length() {
    let counts = counts();
    assert!(counts.runs >= 3_000);
    assert!((0..=40).all(|len| counts.choices.contains_key(&len)));
    assert!((0..=12).chain(40..=80).all(|words| counts.words.contains_key(&words)));
    assert!(counts.words.keys().any(|words| *words > 256));
}

#[test]
fn another_seed_gives_other_runs() {
    let texts = |seed: u64| {
        let mut texts = Vec::new();
        runs::each(seed, &mut |run| texts.push(write_run(run)));
        texts
    };
    assert!(texts(SEED) == texts(SEED) && texts(SEED) != texts(SEED + 1));
}
