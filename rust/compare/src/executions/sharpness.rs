//! Planted violations: in a valid image a word that an execution meets is changed, and the same choices are fed again, as
//! if the image had passed. What is planted must be noticed, and the archive must find the changed image invalid.
use super::checker::Checker;
use super::choices;
use super::images::KINDS;
use super::plants::{plants, Plant, Site};
use crate::library::Library;
use answers::execution::{execute, prototypes, violations, Choice, Execution, Prototype};
use answers::image::{rows, Image};
use answers::judge::judge;
use answers::rng::Rng;

/// How often each violation is planted at least, if the images let it be, and at most.
const ENOUGH: u64 = 30;
const MOST: u64 = 200;

/// Images that are tried at most.
const MOST_IMAGES: u64 = 100_000;

/// How often a violation is planted, how often it is noticed, and how often the archive finds it invalid.
#[derive(Clone, Copy, Default)]
struct Count {
    planted: u64,
    noticed: u64,
    invalid: u64,
}

struct Session<'a> {
    rng: Rng,
    checker: Checker<'a>,
    plants: Vec<(Plant, Count)>,
    /// Valid images, and violations of their executions while nothing is planted.
    valid: u64,
    unplanted: u64,
}

/// A valid image, and the row in which something is planted.
struct Row<'a> {
    image: &'a Image,
    /// The number of its first word in the image.
    start: usize,
    prototype: &'a Prototype,
    roles: &'a [[i32; 2]],
}

impl Row<'_> {
    /// The image with another word in this row.
    fn with(&self, pc: usize, word: u32) -> Image {
        let mut image = self.image.clone();
        let at = 4 * (self.start + pc);
        image.words[at..at + 4].copy_from_slice(&word.to_le_bytes());
        image
    }
}

/// One of the steps of an execution that come to a word behind all words met before. Up to there the roles and the steps
/// stay as they are, whatever is planted there or behind it.
fn step(rng: &mut Rng, execution: &Execution, choices: &[Choice]) -> Option<usize> {
    let met = &execution.met;
    let is_new = |step: &usize| met[..*step].iter().all(|pc| *pc < met[*step]);
    let steps: Vec<usize> = (0..met.len().min(choices.len())).filter(is_new).collect();
    if steps.is_empty() {
        None
    } else {
        Some(rng.pick(&steps))
    }
}

impl<'a> Session<'a> {
    fn new(library: &'a mut dyn Library, seed: u64) -> Self {
        let plants = plants().into_iter().map(|plant| (plant, Count::default())).collect();
        Self { rng: Rng::new(seed), checker: Checker::new(library), plants, valid: 0, unplanted: 0 }
    }

    /// Plants each violation that can be at one word of an execution, alone.
    fn plant(&mut self, row: &Row, choices: &[Choice], site: &Site) {
        for (plant, count) in self.plants.iter_mut().filter(|(_, count)| count.planted < MOST) {
            let Some(planted) = plant.at(&mut self.rng, site) else { continue };
            let mut prototype = row.prototype.clone();
            prototype.words[planted.pc] = planted.word;
            let execution = execute(&prototype, choices).expect("a prototype with words");
            count.planted += 1;
            count.noticed += u64::from(violations(&prototype, &execution).contains(&planted.noticed));
            count.invalid += u64::from(!self.checker.passes(&row.with(planted.pc, planted.word)));
        }
    }

    /// Plants violations in executions of a prototype.
    fn row(&mut self, row: &Row) {
        let Row { prototype, roles, .. } = *row;
        for _ in 0..3 {
            let choices = choices(&mut self.rng, prototype);
            let Some(execution) = execute(prototype, &choices) else { return };
            self.unplanted += violations(prototype, &execution).len() as u64;
            if let Some(step) = step(&mut self.rng, &execution, &choices) {
                let site = Site { prototype, roles, pc: execution.met[step], choice: choices[step] };
                self.plant(row, &choices, &site);
            }
        }
    }

    /// Plants violations in the prototypes of an image, if it is valid.
    fn image(&mut self, image: &Image) {
        if !self.checker.passes(image) {
            return;
        }
        self.valid += 1;
        let roles = judge(image).roles;
        let mut start = 0;
        for (prototype, proto) in prototypes(image).iter().zip(rows(&image.table)) {
            let end = start + proto.words as usize;
            self.row(&Row { image, start, prototype, roles: &roles[start..end] });
            start = end;
        }
    }

    /// Plants violations until there are enough.
    fn all(&mut self) {
        let mut images = 0;
        while images < MOST_IMAGES && self.plants.iter().any(|(_, count)| count.planted < ENOUGH) {
            images += 1;
            let image = self.rng.pick(&KINDS).1(&mut self.rng);
            self.image(&image);
        }
    }

    fn total(&self) -> Total {
        let sum = |of: fn(&Count) -> u64| self.plants.iter().map(|(_, count)| of(count)).sum::<u64>();
        let [planted, noticed, invalid] =
            [sum(|count| count.planted), sum(|count| count.noticed), sum(|count| count.invalid)];
        Total {
            never: self.plants.iter().filter(|(_, count)| count.planted == 0).count(),
            planted,
            unnoticed: planted - noticed,
            passed: planted - invalid,
            unplanted: self.unplanted,
        }
    }
}

/// How many kinds are never planted, how often any is planted, not noticed, and passed by the archive, and how many
/// violations there are while nothing is planted.
#[derive(Debug)]
struct Total {
    never: usize,
    planted: u64,
    unnoticed: u64,
    passed: u64,
    unplanted: u64,
}

impl Total {
    /// Whether each kind is planted, all are noticed, the archive finds all invalid, and no execution violates while
    /// nothing is planted.
    fn is_right(&self) -> bool {
        self.never == 0 && self.unnoticed == 0 && self.passed == 0 && self.unplanted == 0
    }
}

/// Prints how often each violation is planted, noticed and found invalid.
fn print(session: &Session, total: &Total) {
    println!("{:<48}{:>10}{:>10}{:>10}", "violation", "planted", "noticed", "invalid");
    for (plant, Count { planted, noticed, invalid }) in &session.plants {
        println!("{:<48}{planted:>10}{noticed:>10}{invalid:>10}", plant.name);
    }
    let Total { never, planted, unnoticed, passed, unplanted } = total;
    println!("{} valid images, {unplanted} violations while nothing is planted", session.valid);
    println!(
        "{} kinds of violations, {never} never planted; {planted} planted, {} not noticed, {} passed by the archive",
        session.plants.len(),
        unnoticed,
        passed
    );
}

/// Plants violations until there are enough, prints their counts, and says whether all is as it must be.
pub fn run(library: &mut dyn Library, seed: u64) -> bool {
    let mut session = Session::new(library, seed);
    session.all();
    let total = session.total();
    print(&session, &total);
    total.is_right()
}

#[cfg(test)]
mod tests {
    use super::*;
    use answers::execution::{Choice::On, End};
    use archive::{Call, CHECKED};

    /// A library that passes every image: its checks are accepted, with ValidForParser.
    struct Lenient;

    impl Library for Lenient {
        fn call(&mut self, _: Call, _: &Image, _: &mut [u8], _: &mut [u8]) -> u64 {
            CHECKED
        }
    }

    #[test]
    fn a_library_that_passes_everything_is_caught() {
        let mut lenient = Lenient;
        let mut session = Session::new(&mut lenient, 2);
        session.all();
        let total = session.total();
        assert!(total.planted > 0 && total.unplanted > 0, "{total:?}");
        assert_eq!(total.passed, total.planted);
        // that they pass is enough
        assert!(!Total { never: 0, unnoticed: 0, unplanted: 0, ..total }.is_right());
    }

    #[test]
    fn steps_to_words_behind_all_before() {
        let execution = Execution { met: vec![0, 2, 1, 2, 4, 3], end: End::GaveOut(3) };
        let mut rng = Rng::new(1);
        let mut drawn = |choices: usize| {
            let all: Vec<usize> = (0..50).filter_map(|_| step(&mut rng, &execution, &vec![On; choices])).collect();
            (0..6).filter(|step| all.contains(step)).collect::<Vec<_>>()
        };
        assert_eq!(drawn(5), [0, 1, 4]);
        assert_eq!(drawn(2), [0, 1]);
        assert_eq!(drawn(0), []);
    }
}
