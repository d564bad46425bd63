//! Valid images, and the same with one thing changed.
use super::random::depths;
use crate::image::{image, Image, Source};
use crate::list::List;
use crate::rng::Rng;
use crate::word::{abc, abx, bind_register, bind_upvalue, closure, jump, op, setlist_long, RETURN};

/// What stands at a pc of a valid prototype.
#[derive(Clone, Copy, PartialEq)]
pub enum Slot {
    Plain,
    Closure(u32),
    Binding,
    Setlist,
    Extra,
}

impl Slot {
    fn is_companion(self) -> bool {
        matches!(self, Slot::Binding | Slot::Extra)
    }
}

/// Owners with their companions, and plain words; the last one is plain.
fn slots(rng: &mut Rng, words: usize, child_upvalues: &[u32]) -> Vec<Slot> {
    let mut slots = Vec::new();
    while slots.len() < words {
        match rng.below(6) {
            0 if !child_upvalues.is_empty() => {
                let child = rng.below(child_upvalues.len() as u32);
                slots.push(Slot::Closure(child));
                slots.extend(vec![Slot::Binding; child_upvalues[child as usize] as usize]);
            }
            1 => slots.extend([Slot::Setlist, Slot::Extra]),
            _ => slots.push(Slot::Plain),
        }
    }
    slots.push(Slot::Plain);
    slots
}

/// Where a plain word stands, and what it may name.
struct Site<'a> {
    slots: &'a [Slot],
    pc: usize,
    constants: u32,
    upvalues: u32,
    stack: u32,
}

impl Site<'_> {
    fn register(&self, rng: &mut Rng) -> u32 {
        rng.below(self.stack)
    }

    fn rk(&self, rng: &mut Rng) -> u32 {
        if rng.one_in(2) {
            256 + rng.below(self.constants.min(256))
        } else {
            self.register(rng)
        }
    }

    /// A skip from here does not come to a companion.
    fn may_skip(&self) -> bool {
        !self.slots.get(self.pc + 2).is_some_and(|slot| slot.is_companion())
    }

    /// A pc that is not a companion's.
    fn target(&self, rng: &mut Rng) -> i32 {
        let open: Vec<usize> = (0..self.slots.len()).filter(|pc| !self.slots[*pc].is_companion()).collect();
        rng.pick(&open) as i32
    }

    /// A word that breaks no rule at this pc, or `None` where the opcode has none.
    fn word(&self, rng: &mut Rng, opcode: u32) -> Option<u32> {
        let (a, b, c) = (self.register(rng), self.register(rng), self.register(rng));
        let (rk_b, rk_c) = (self.rk(rng), self.rk(rng));
        let room = self.stack - a;
        let word = match opcode {
            op::LOADK | op::GETGLOBAL | op::SETGLOBAL => abx(opcode, a, rng.below(self.constants)),
            op::LOADBOOL => abc(opcode, a, b, u32::from(self.may_skip() && rng.one_in(2))),
            op::GETUPVAL | op::SETUPVAL if self.upvalues > 0 => abc(opcode, a, rng.below(self.upvalues), c),
            op::GETTABLE => abc(opcode, a, b, rk_c),
            op::SELF if room > 1 => abc(opcode, a, b, rk_c),
            op::SETTABLE | op::ADD..=op::POW => abc(opcode, a, rk_b, rk_c),
            op::JMP => jump(opcode, a, self.pc, self.target(rng)),
            op::FORLOOP | op::FORPREP if room > 3 => jump(opcode, a, self.pc, self.target(rng)),
            op::EQ..=op::LE if self.may_skip() => abc(opcode, rng.below(2), rk_b, rk_c),
            op::TEST | op::TESTSET if self.may_skip() => abc(opcode, a, b, c),
            op::TFORLOOP if self.may_skip() && room > 2 => abc(opcode, a, 0, rng.below(room - 2)),
            op::CALL => abc(opcode, a, rng.range(0, room), rng.range(0, room + 1)),
            op::TAILCALL => abc(opcode, a, rng.range(0, room), 0),
            op::RETURN | op::VARARG => abc(opcode, a, rng.range(0, room + 1), 0),
            op::SETLIST => abc(opcode, a, rng.below(room), 1 + c),
            op::MOVE | op::LOADNIL | op::NEWTABLE | op::UNM..=op::CONCAT | op::CLOSE => abc(opcode, a, b, c),
            _ => return None,
        };
        Some(word)
    }
}

/// The binding word of a companion.
fn bind(rng: &mut Rng, site: &Site) -> u32 {
    if site.upvalues > 0 && rng.one_in(2) {
        bind_upvalue(rng.below(site.upvalues))
    } else {
        bind_register(site.register(rng))
    }
}

/// The code of a valid prototype whose slots end with a plain one; plain words have the opcodes that `opcode` draws.
pub fn code(rng: &mut Rng, proto: &Source, slots: &[Slot], opcode: fn(&mut Rng) -> u32) -> Vec<u32> {
    let Source { constants, upvalues, stack, .. } = *proto;
    let mut code = Vec::new();
    for (pc, slot) in slots.iter().enumerate() {
        let site = Site { slots, pc, constants, upvalues, stack };
        code.push(match slot {
            Slot::Closure(child) => closure(site.register(rng), *child),
            Slot::Setlist => setlist_long(0, rng.below(stack)),
            Slot::Extra => rng.bits() as u32,
            Slot::Binding => bind(rng, &site),
            Slot::Plain if pc + 1 == slots.len() => RETURN,
            Slot::Plain => loop {
                let opcode = opcode(rng);
                if let Some(word) = site.word(rng, opcode) {
                    break word;
                }
            },
        });
    }
    code
}

/// The upvalues of a row's children.
fn child_upvalues(sources: &[Source], row: usize) -> Vec<u32> {
    let below = sources[row + 1..].iter().take_while(|source| source.depth > sources[row].depth);
    below.filter(|source| source.depth == sources[row].depth + 1).map(|source| source.upvalues).collect()
}

/// A valid image of `rows` rows.
pub fn sources(rng: &mut Rng, rows: u32, words: u32) -> Vec<Source> {
    let field = |rng: &mut Rng, depth: u32| Source {
        depth,
        constants: rng.pick(&[1, 2, 3, 8, 256, 260]),
        upvalues: rng.pick(&[0, 1, 2, 3]),
        stack: rng.pick(&[1, 2, 3, 5, 8, 250]),
        code: Vec::new(),
    };
    let mut sources: Vec<Source> = depths(rng, rows).into_iter().map(|depth| field(rng, depth)).collect();
    for row in 0..sources.len() {
        let words = rng.range(0, words) as usize;
        let slots = slots(rng, words, &child_upvalues(&sources, row));
        sources[row].code = code(rng, &sources[row], &slots, |rng| rng.below(38));
    }
    sources
}

/// Makes one field of a prototype one less, or one more but at most 255.
fn change_field(rng: &mut Rng, source: &mut Source) {
    let field = match rng.below(3) {
        0 => &mut source.constants,
        1 => &mut source.upvalues,
        _ => &mut source.stack,
    };
    *field = if rng.one_in(4) { field.saturating_add(1).min(255) } else { field.saturating_sub(1) };
}

/// Changes one thing in one prototype.
fn mutate(rng: &mut Rng, source: &mut Source) {
    let pc = rng.below(source.code.len() as u32) as usize;
    let other = rng.below(source.code.len() as u32) as usize;
    let word = source.code[pc];
    match rng.below(9) {
        0 | 1 => source.code[pc] ^= 1 << rng.below(32),
        2 => source.code[pc] = word & !(0xff << 6) | rng.pick(&[source.stack.min(255), 2, 255]) << 6,
        3 => source.code[pc] = word & !(0x1ff << 14) | rng.pick(&[0, 1, source.stack, 255, 256, 511]) << 14,
        4 => source.code[pc] = word & !(0x1ff << 23) | rng.pick(&[0, 1, source.stack, 255, 256, 511]) << 23,
        5 => drop(source.code.remove(pc)),
        6 => source.code.insert(pc, word),
        7 => source.code.swap(pc, other),
        _ => change_field(rng, source),
    }
}

/// Changes one thing in one of the prototypes that have code.
pub fn change(rng: &mut Rng, sources: &mut [Source]) {
    let rows: Vec<usize> = (0..sources.len()).filter(|row| !sources[*row].code.is_empty()).collect();
    let row = rng.pick(&rows);
    mutate(rng, &mut sources[row]);
}

/// A valid image that stays small with one word more.
fn small_sources(rng: &mut Rng) -> Vec<Source> {
    loop {
        let rows = rng.pick(&[1, 2, 2, 3, 4]);
        let sources = sources(rng, rows, 24 / rows);
        let mut longer: Image = image(&sources);
        longer.words.extend([0; 4]);
        if longer.is_small() {
            return sources;
        }
    }
}

pub fn add(list: &mut List) {
    for _ in 0..110 {
        let sources = small_sources(&mut list.rng);
        let answer = list.add("valid", image(&sources)).expect("an image without refusals 1 to 6");
        assert!(answer.diagnostics.is_empty(), "a valid image: {:?}", answer.diagnostics);
        for _ in 0..5 {
            let mut changed = sources.clone();
            change(&mut list.rng, &mut changed);
            list.add("changed", image(&changed));
        }
    }
}
