//! An image with luad's answer for it, and the buffers that the calls are lent.
use answers::calls::answer;
use answers::image::{Buffers, Image};
use answers::judge::Answer;
use answers::limits::MAX_DIAGNOSTICS;
use answers::rng::Rng;
use archive::RECORD_BYTES;

pub struct Case {
    pub image: Image,
    /// luad's, where none of the refusals 1 to 6 applies.
    pub answer: Option<Answer>,
    pub records: Records,
}

/// The bytes of role, binding and diagnostic records.
#[derive(Default)]
pub struct Records(pub [Vec<u8>; 3]);

fn bytes<const N: usize>(records: &[[i32; N]]) -> Vec<u8> {
    records.iter().flatten().flat_map(|value| value.to_le_bytes()).collect()
}

impl Records {
    pub fn of(answer: Option<&Answer>) -> Self {
        answer.map_or_else(Self::default, |answer| {
            Self([bytes(&answer.roles), bytes(&answer.bindings), bytes(&answer.diagnostics)])
        })
    }

    /// How many there are of each kind.
    pub fn counts(&self) -> [usize; 3] {
        [0, 1, 2].map(|kind| self.0[kind].len() / RECORD_BYTES[kind])
    }
}

/// Ways to lend buffers, besides those that fit exactly.
const TURNS: u32 = 7;

/// Those of them with much room for diagnostics. Every byte of it is compared, which takes longer than the calls, so they
/// get fewer images than the others.
const ROOMY: [u32; 2] = [5, 6];

impl Case {
    /// The image, judged by luad.
    pub fn new(image: Image) -> Self {
        let answer = answer(&image);
        let records = Records::of(answer.as_ref());
        Self { image, answer, records }
    }

    /// The verdict's number; 0 where there is none.
    pub fn verdict(&self) -> u64 {
        self.answer.as_ref().map_or(0, |answer| answer.verdict as u64)
    }

    /// Buffers that fit exactly; for a refused image, some that would do.
    pub fn exact(&self) -> Buffers {
        let [_, bindings, diagnostics] = match self.answer {
            Some(_) => [0, 1, 2].map(|kind| self.records.0[kind].len()),
            None => [0, 36, 160],
        };
        Buffers { roles: 8 * (self.image.words.len() / 4), bindings, diagnostics }
    }

    /// Buffers that do not fit exactly, in one of a few ways. What cannot be shorter stays as it is.
    pub fn turn(&self, turn: u32) -> Buffers {
        let Buffers { roles, bindings, diagnostics } = self.exact();
        let less = |len: usize, bytes: usize| len.checked_sub(bytes).unwrap_or(len);
        let [roles, bindings, diagnostics] = match turn {
            0 => [roles + 5, bindings + 31, diagnostics + 39],
            1 => [roles, less(bindings, 12), less(diagnostics, 16)],
            2 => [less(roles, 1), bindings, diagnostics],
            3 => [roles + 1, less(bindings, 1), less(diagnostics, 1)],
            4 => [roles, 0, 0],
            5 => [roles, bindings + 12, 16 * MAX_DIAGNOSTICS],
            _ => [less(roles, 8), bindings + 11, 16 * (MAX_DIAGNOSTICS - 1)],
        };
        Buffers { roles, bindings, diagnostics }
    }

    /// The buffers of the image with this number: an exact fit, one of the others, and the image's own if it has any.
    pub fn buffers(&self, number: u64) -> Vec<Buffers> {
        let mut rng = Rng::new(number);
        let turn = if rng.one_in(16) { rng.pick(&ROOMY) } else { rng.below(TURNS - ROOMY.len() as u32) };
        let mut all = vec![self.exact(), self.turn(turn)];
        if self.image.buffers != Buffers::default() {
            all.push(self.image.buffers);
        }
        all
    }

    /// Buffers in every way.
    pub fn all_buffers(&self) -> Vec<Buffers> {
        let turns = (0..TURNS).map(|turn| self.turn(turn));
        [self.exact(), self.image.buffers].into_iter().chain(turns).collect()
    }
}
