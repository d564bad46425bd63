//! The executions of valid images: none may meet or do what document 01 forbids.
use super::checker::Checker;
use super::choices;
use super::images::{scripts, KINDS};
use super::tally::{Tally, SCRIPTS};
use crate::library::Library;
use answers::calls::calls;
use answers::execution::{execute, prototypes, violations, Choice, Prototype};
use answers::image::Image;
use answers::rng::Rng;
use answers::runs::text::write_run;
use answers::runs::Run;
use answers::text::write_record;

/// Executions of each prototype of a valid image.
const RUNS: usize = 8;

/// Violating executions that are shown; all are counted.
const MOST_SHOWN: u64 = 10;

/// How many images are drawn at random until a compiled script is drawn again.
const BETWEEN_SCRIPTS: u64 = 400;

struct Session<'a> {
    rng: Rng,
    checker: Checker<'a>,
    tally: Tally,
}

/// The image, the row and the run, in the formats of tests/answers, and what is wrong.
fn show(image: &Image, row: usize, prototype: &Prototype, choices: &[Choice], wrong: &[String]) -> String {
    let run = Run { label: format!("row-{row}"), prototype: prototype.clone(), choices: choices.to_vec() };
    format!("violates: {}\n{}{}", wrong.join("; "), write_record(image, &calls(image)), write_run(&run))
}

impl Session<'_> {
    /// Makes the executions of a prototype, which is that of a row of a valid image.
    fn prototype(&mut self, kind: usize, image: &Image, row: usize, prototype: &Prototype) {
        let mut met = vec![false; prototype.words.len()];
        for _ in 0..RUNS {
            let choices = choices(&mut self.rng, prototype);
            let execution = execute(prototype, &choices);
            self.tally.add_run(kind, prototype, &choices, execution.as_ref());
            let Some(execution) = execution else { break };
            execution.met.iter().for_each(|pc| met[*pc] = true);
            let wrong: Vec<String> = violations(prototype, &execution).iter().map(|wrong| wrong.to_string()).collect();
            if !wrong.is_empty() {
                self.tally.violating += 1;
                if self.tally.violating <= MOST_SHOWN {
                    println!("{}", show(image, row, prototype, &choices, &wrong));
                }
            }
        }
        self.tally.add_prototype(kind, &met);
    }

    /// Makes the executions of an image, if it is valid.
    fn image(&mut self, kind: usize, mut image: Image) {
        let is_valid = self.checker.passes(&image);
        self.tally.add_image(kind, &image, is_valid);
        if is_valid {
            image.label = format!("{}-{}", kind + 1, self.tally.images());
            for (row, prototype) in prototypes(&image).iter().enumerate() {
                self.prototype(kind, &image, row, prototype);
            }
        }
    }

    /// Makes at least `count` executions; with a library that finds nothing valid it ends all the same.
    fn all(&mut self, count: u64) {
        let scripts = scripts();
        scripts.iter().for_each(|script| self.image(SCRIPTS, script.clone()));
        while self.tally.runs < count && self.tally.images() < count + BETWEEN_SCRIPTS {
            if self.tally.images() % BETWEEN_SCRIPTS == 0 {
                let script = self.rng.below(scripts.len() as u32) as usize;
                self.image(SCRIPTS, scripts[script].clone());
            } else {
                let kind = self.rng.below(KINDS.len() as u32) as usize;
                let image = KINDS[kind].1(&mut self.rng);
                self.image(kind, image);
            }
        }
    }
}

/// Makes at least `count` executions, prints their counts, and says whether none violates and nothing is missing.
pub fn run(library: &mut dyn Library, seed: u64, count: u64) -> bool {
    let mut session = Session { rng: Rng::new(seed), checker: Checker::new(library), tally: Tally::default() };
    session.all(count);
    let Tally { runs, violating, .. } = session.tally;
    let missing = session.tally.missing();
    missing.iter().for_each(|name| println!("never: {name}"));
    println!("{}", session.tally);
    violating == 0 && missing.is_empty() && runs >= count
}

#[cfg(test)]
mod tests {
    use super::*;
    use crate::kinds::near_valid;
    use crate::library::Archive;
    use answers::judge::judge;
    use archive::{Call, CHECKED};

    /// A library that overlooks the errors of some codes.
    struct Overlooks(&'static [i32]);

    impl Library for Overlooks {
        fn call(&mut self, _: Call, image: &Image, _: &mut [u8], _: &mut [u8]) -> u64 {
            let seen = |diagnostic: &[i32; 4]| diagnostic[2] != 3 && !self.0.contains(&diagnostic[2]);
            if judge(image).diagnostics.iter().any(seen) {
                2 << 40 | CHECKED
            } else {
                CHECKED
            }
        }
    }

    /// A library that finds nothing valid.
    struct Invalid;

    impl Library for Invalid {
        fn call(&mut self, _: Call, _: &Image, _: &mut [u8], _: &mut [u8]) -> u64 {
            2 << 40 | CHECKED
        }
    }

    /// How many runs violate out of some of changed images that a library passes.
    fn violating(library: &mut dyn Library) -> u64 {
        let mut session = Session { rng: Rng::new(9), checker: Checker::new(library), tally: Tally::default() };
        for _ in 0..4_000 {
            let image = near_valid::one(&mut session.rng);
            session.image(0, image);
        }
        session.tally.violating
    }

    #[test]
    fn no_run_violates() {
        assert!(run(&mut Archive, 3, 20_000));
        assert_eq!(violating(&mut Archive), 0);
    }

    #[test]
    fn a_library_that_finds_nothing_valid_is_caught() {
        assert!(!run(&mut Invalid, 3, 1_000));
    }

    #[test]
    fn a_library_that_overlooks_a_code_is_caught() {
        for code in [[4], [5], [6], [7], [8], [10], [11], [12], [13], [14], [15], [16]] {
            assert!(violating(&mut Overlooks(Box::leak(Box::new(code)))) > 0, "{code:?}");
        }
    }

    /// An owner without all its companions leaves past the last word, and the flag A of EQ, LT and LE and a binding word
    /// of another opcode name nothing.
    #[test]
    fn codes_that_no_run_shows() {
        assert_eq!(violating(&mut Overlooks(&[1, 2, 9, 17])), 0);
    }
}
