//! The roles and operands of the transcription, against luad's roles and diagnostics on random images.
use answers::execution::{execute, named, prototypes, Choice, Execution, Operand, Prototype};
use answers::families::random::sources;
use answers::image::{image, Image};
use answers::judge::{judge, Answer};
use answers::rng::Rng;
use answers::runs::random_prototype;
use std::collections::BTreeSet;

/// A random image, and luad's answer.
fn judged(rng: &mut Rng) -> (Image, Answer) {
    let rows = rng.pick(&[1, 1, 2, 3]);
    let image = image(&sources(rng, rows, 12));
    let answer = judge(&image);
    (image, answer)
}

/// The pc of each row's first word in the image.
fn starts(all: &[Prototype]) -> Vec<usize> {
    (0..all.len()).map(|row| all[..row].iter().map(|prototype| prototype.words.len()).sum()).collect()
}

#[test]
fn companions_are_those_of_luad() {
    let mut rng = Rng::new(51);
    for _ in 0..3_000 {
        let (image, answer) = judged(&mut rng);
        let companions: Vec<bool> = prototypes(&image).iter().flat_map(Prototype::companions).collect();
        let expected: Vec<bool> = answer.roles.iter().map(|role| role[0] >= 0).collect();
        assert_eq!(companions, expected);
    }
}

/// The operand that a diagnostic is about, if it is about one.
fn operand(code: i32, value: i32) -> Option<Operand> {
    let value = value as u32;
    match code {
        7 | 14 | 15 => Some(Operand::Constant(value)),
        8 => Some(Operand::Upvalue(value)),
        10..=13 => Some(Operand::Register(value)),
        16 => Some(Operand::Child(value)),
        _ => None,
    }
}

/// The operands that luad finds not to be inside, as texts of row, pc of the word that names it, and operand.
fn found_by_luad(answer: &Answer, starts: &[usize]) -> Vec<String> {
    let mut all = Vec::new();
    for [row, pc, code, value] in &answer.diagnostics {
        if let Some(operand) = operand(*code, *value) {
            let owner = answer.roles[starts[*row as usize] + *pc as usize][0];
            let pc = if owner >= 0 { owner } else { *pc };
            all.push(format!("{row} {pc} {operand:?}"));
        }
    }
    all.sort();
    all
}

/// The same by the transcription.
fn found(all: &[Prototype]) -> Vec<String> {
    let mut found = Vec::new();
    for (row, prototype) in all.iter().enumerate() {
        let companions = prototype.companions();
        for pc in (0..companions.len()).filter(|pc| !companions[*pc]) {
            let outside = named(prototype, pc).into_iter().filter(|operand| !operand.is_inside(prototype));
            found.extend(outside.map(|operand| format!("{row} {pc} {operand:?}")));
        }
    }
    found.sort();
    found
}

#[test]
fn operands_not_inside_are_those_of_luad() {
    let mut rng = Rng::new(52);
    let mut count = 0;
    for _ in 0..5_000 {
        let (image, answer) = judged(&mut rng);
        let all = prototypes(&image);
        let expected = found_by_luad(&answer, &starts(&all));
        assert_eq!(found(&all), expected);
        count += expected.len();
    }
    assert!(count > 10_000, "{count}");
}

/// The pcs of companions, and of no words, to which the word at pc 0 leads.
fn targets(prototype: &Prototype) -> BTreeSet<i64> {
    let companions = prototype.companions();
    let mut all = BTreeSet::new();
    for choice in [Choice::On, Choice::Off] {
        match execute(prototype, &[choice]).expect("a prototype with words") {
            Execution { met, .. } if met.len() > 1 && companions[met[1]] => drop(all.insert(met[1] as i64)),
            Execution { end: answers::execution::End::Left(pc), .. } => drop(all.insert(pc)),
            _ => {}
        }
    }
    all
}

#[test]
fn targets_are_those_of_luad() {
    let mut rng = Rng::new(53);
    let mut count = 0;
    for _ in 0..20_000 {
        let prototype = random_prototype(&mut rng, 6);
        if prototype.words.is_empty() {
            continue;
        }
        let answer = judge(&prototype.image());
        let at_start = answer.diagnostics.iter().filter(|[row, pc, ..]| [*row, *pc] == [0, 0]);
        let wrong: BTreeSet<i64> =
            at_start.filter(|[_, _, code, _]| [5, 6].contains(code)).map(|[.., value]| i64::from(*value)).collect();
        let targets = targets(&prototype);
        let past =
            |pc: &i64| (0..=prototype.words.len() as i64 + 4).contains(pc) && *pc >= prototype.words.len() as i64;
        assert!(wrong.is_subset(&targets), "{prototype:?}");
        assert!(targets.difference(&wrong).all(past), "{prototype:?}");
        count += wrong.len();
    }
    assert!(count > 1_000, "{count}");
}
