//! The rows, words and children of an image, as a wrong judge needs them.
use answers::chunk::children;
use answers::image::{fields, rows, Image, Row};
use answers::word::op;

pub struct Layout {
    pub rows: Vec<Row>,
    /// The rows that are each row's children.
    pub children: Vec<Vec<usize>>,
    /// The number of the first word, and of the first upvalue, of each row in the image.
    pub first_word: Vec<usize>,
    pub first_upvalue: Vec<usize>,
    pub words: Vec<u32>,
}

/// The sums of the numbers before each.
fn sums(numbers: impl Iterator<Item = u32>) -> Vec<usize> {
    let before = |sum: &mut usize, number: u32| {
        *sum += number as usize;
        Some(*sum - number as usize)
    };
    numbers.scan(0, before).collect()
}

impl Layout {
    pub fn of(image: &Image) -> Self {
        let rows = rows(&image.table);
        Self {
            children: children(&rows),
            first_word: sums(rows.iter().map(|row| row.words)),
            first_upvalue: sums(rows.iter().map(|row| row.upvalues)),
            words: fields(&image.words),
            rows,
        }
    }

    /// The words of a row.
    pub fn code(&self, row: usize) -> &[u32] {
        &self.words[self.first_word[row]..][..self.rows[row].words as usize]
    }

    /// The child that a word names, if it is a CLOSURE and the child exists.
    pub fn closure(&self, row: usize, word: u32) -> Option<usize> {
        let child = || self.children[row].get((word >> 14) as usize).copied();
        if word & 0x3f == op::CLOSURE {
            child()
        } else {
            None
        }
    }

    /// How many companions a word owns, and the upvalue index of the first.
    pub fn owned(&self, row: usize, word: u32) -> (usize, i32) {
        match self.closure(row, word) {
            Some(child) => (self.rows[child].upvalues as usize, 0),
            None if word & 0x3f == op::SETLIST && word >> 14 & 0x1ff == 0 => (1, -1),
            None => (0, 0),
        }
    }
}
