//! One prototype as executions see it, and which of its words are companions.
use super::fields::Fields;
use crate::chunk::children;
use crate::image::{fields, image, rows, Image, Source};
use crate::word::op;

/// A prototype: its figures, the upvalues of each of its children, and its words.
#[derive(Debug, Clone, PartialEq, Eq, Hash)]
pub struct Prototype {
    pub constants: u32,
    pub upvalues: u32,
    pub stack: u32,
    pub children: Vec<u32>,
    pub words: Vec<u32>,
}

impl Prototype {
    /// The fields of the word at a pc.
    pub fn fields(&self, pc: usize) -> Fields {
        Fields::of(self.words[pc])
    }

    /// The pc, if there is a word at it.
    pub fn with_word(&self, pc: i64) -> Option<usize> {
        usize::try_from(pc).ok().filter(|pc| *pc < self.words.len())
    }

    /// "A CLOSURE whose child Bx exists owns as many companions as that child has upvalues [..]; a SETLIST with C = 0 owns
    /// one; other words none." This is of executable words; a companion owns nothing.
    pub fn owned(&self, fields: Fields) -> usize {
        match fields.opcode {
            op::CLOSURE => self.children.get(fields.bx as usize).map_or(0, |upvalues| *upvalues as usize),
            op::SETLIST if fields.c == 0 => 1,
            _ => 0,
        }
    }

    /// For each word, whether it is a companion. "Word 0 is executable. [..] Those of the next words that exist are
    /// companions, and the word after them is executable. [..] A companion's bits are never read as an owner."
    pub fn companions(&self) -> Vec<bool> {
        let mut companions = vec![true; self.words.len()];
        let mut pc = 0;
        while pc < self.words.len() {
            companions[pc] = false;
            pc += 1 + self.owned(self.fields(pc));
        }
        companions
    }

    /// An image of the prototype and its children, which have no words.
    pub fn image(&self) -> Image {
        let mut sources = vec![Source::main(self.constants, self.upvalues, self.stack, &self.words)];
        sources.extend(self.children.iter().map(|upvalues| Source::main(0, *upvalues, 2, &[]).at(1)));
        image(&sources)
    }
}

/// The prototypes of an image that has none of the refusals 1 to 6.
pub fn prototypes(image: &Image) -> Vec<Prototype> {
    let (rows, words) = (rows(&image.table), fields(&image.words));
    let mut all = Vec::new();
    let mut rest = &words[..];
    for (row, children) in rows.iter().zip(children(&rows)) {
        let (code, after) = rest.split_at(row.words as usize);
        rest = after;
        all.push(Prototype {
            constants: row.constants,
            upvalues: row.upvalues,
            stack: row.stack,
            children: children.iter().map(|child| rows[*child].upvalues).collect(),
            words: code.to_vec(),
        });
    }
    all
}
