//! Violations to plant: each changes one word of a prototype, so that an execution that meets it violates. What is to be
//! noticed then is written down from document 01's tables, opcode by opcode.
mod operands;
mod targets;

use answers::execution::{Choice, Prototype, Violation};
use answers::rng::Rng;
use luad::opcodes::Opcode51;

/// A word that an execution meets, all of whose words before this are before it in the code, too.
pub struct Site<'a> {
    pub prototype: &'a Prototype,
    /// luad's roles of the words: owner and upvalue index, or twice -1.
    pub roles: &'a [[i32; 2]],
    pub pc: usize,
    /// The choice that the execution takes here.
    pub choice: Choice,
}

impl Site<'_> {
    fn word(&self) -> u32 {
        self.prototype.words[self.pc]
    }

    /// The pcs of the words with such roles.
    fn with_role(&self, is_such: impl Fn([i32; 2]) -> bool) -> Vec<usize> {
        (0..self.roles.len()).filter(|pc| is_such(self.roles[*pc])).collect()
    }
}

/// A word in place of another, and what is to be noticed.
pub struct Planted {
    pub pc: usize,
    pub word: u32,
    pub noticed: Violation,
}

/// Plants a violation at a word of an opcode, if it can be there.
type Make = Box<dyn Fn(&mut Rng, &Site) -> Option<Planted>>;

pub struct Plant {
    pub name: String,
    /// The opcode of the words at which it is planted; none for those of all opcodes.
    opcode: Option<u32>,
    make: Make,
}

impl Plant {
    fn new(opcode: u32, what: &str, make: impl Fn(&mut Rng, &Site) -> Option<Planted> + 'static) -> Self {
        let name = Opcode51::from_u8(opcode as u8).expect("a known opcode").name();
        Self { name: format!("{name}: {what}"), opcode: Some(opcode), make: Box::new(make) }
    }

    /// Plants the violation at a word, if it can be there.
    pub fn at(&self, rng: &mut Rng, site: &Site) -> Option<Planted> {
        let is_there = self.opcode.is_none_or(|opcode| opcode == site.word() & 0x3f);
        is_there.then(|| (self.make)(rng, site)).flatten()
    }
}

/// One of the values, if there are any.
fn pick<T: Copy>(rng: &mut Rng, values: &[T]) -> Option<T> {
    if values.is_empty() {
        None
    } else {
        Some(rng.pick(values))
    }
}

/// All violations.
pub fn plants() -> Vec<Plant> {
    let mut all = operands::plants();
    all.extend(targets::plants());
    all
}
