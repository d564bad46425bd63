//! The comparison of a library's calls with what they must answer and write.
use crate::buffer::Buffer;
use crate::case::Case;
use crate::library::{own_len, Library};
use answers::calls::{outcomes, Outcome};
use answers::image::Buffers;
use answers::refusal::Refusal;
use archive::{result, Call, CALLS};
use std::fmt;

/// What is not as it must be.
#[derive(Debug, Clone, PartialEq, Eq)]
pub enum What {
    Result { found: u64, expected: u64 },
    RoleBuffer(isize),
    OwnBuffer(isize),
    Slices,
}

/// The first thing in which a call's answer is not luad's.
#[derive(Debug, Clone, PartialEq, Eq)]
pub struct Difference {
    pub call: Call,
    pub buffers: Buffers,
    pub what: What,
}

impl fmt::Display for Difference {
    fn fmt(&self, f: &mut fmt::Formatter) -> fmt::Result {
        let Buffers { roles, bindings, diagnostics } = self.buffers;
        write!(f, "{} with buffers of {roles}, {bindings} and {diagnostics} bytes: ", self.call)?;
        match self.what {
            What::Result { found, expected } => write!(f, "result {found:#x}, not {expected:#x}"),
            What::RoleBuffer(at) => write!(f, "byte {at} of the role buffer"),
            What::OwnBuffer(at) => write!(f, "byte {at} of its own buffer"),
            What::Slices => write!(f, "the table or the words are changed"),
        }
    }
}

/// Refusals are counted up to this number; 0 is no refusal.
pub const LAST_REFUSAL: usize = 8;

/// The buffers of calls, one of each fill, and counts of the calls made by their expected refusals.
pub struct Comparer {
    roles: [Buffer; 2],
    own: [Buffer; 2],
    pub made: [[u64; LAST_REFUSAL + 1]; 3],
}

impl Default for Comparer {
    fn default() -> Self {
        let pair = || [0, 0xff].map(Buffer::new);
        Self { roles: pair(), own: pair(), made: Default::default() }
    }
}

/// Whether a call with this outcome writes the role buffer, and its own.
fn writes(call: Call, outcome: Outcome) -> (bool, bool) {
    match outcome {
        Ok(_) => (true, call != Call::Roles),
        Err(refused) => (refused.refusal == Refusal::BufferTooShort, false),
    }
}

impl Comparer {
    /// Makes a call, and gives what is not as it must be; `fill` chooses the pattern.
    fn call(
        &mut self,
        library: &mut dyn Library,
        case: &Case,
        call: Call,
        buffers: Buffers,
        outcome: Outcome,
        fill: usize,
    ) -> Option<What> {
        let (roles, own) = (&mut self.roles[fill % 2], &mut self.own[fill % 2]);
        let lent = roles.lend(buffers.roles, fill % 5);
        let found = library.call(call, &case.image, lent, own.lend(own_len(call, buffers), fill % 3));
        let expected = result(call, outcome, case.verdict());
        let (roles_written, own_written) = writes(call, outcome);
        let records = |kind: Call, written: bool| if written { &case.records.0[kind as usize][..] } else { &[] };
        let wrong_roles = roles.take_back(records(Call::Roles, roles_written));
        let wrong_own = own.take_back(records(call, own_written));
        self.made[call as usize][outcome.map_or_else(|refused| refused.refusal as usize, |_| 0)] += 1;
        if found != expected {
            return Some(What::Result { found, expected });
        }
        wrong_roles.map(What::RoleBuffer).or(wrong_own.map(What::OwnBuffer))
    }

    /// Makes the three calls with each of the buffers, and gives the first difference.
    pub fn compare(
        &mut self,
        library: &mut dyn Library,
        case: &Case,
        all: &[Buffers],
        number: u64,
    ) -> Option<Difference> {
        let (table, words) = (case.image.table.clone(), case.image.words.clone());
        let mut first = None;
        for (turn, buffers) in all.iter().enumerate() {
            let expected = outcomes(&case.image, *buffers, case.records.counts());
            for call in CALLS {
                let fill = number as usize + turn;
                let what = self.call(library, case, call, *buffers, expected[call as usize], fill);
                first = first.or(what.map(|what| Difference { call, buffers: *buffers, what }));
            }
        }
        if first.is_none() && (table != case.image.table || words != case.image.words) {
            first = Some(Difference { call: Call::Check, buffers: all[0], what: What::Slices });
        }
        first
    }
}
