//! Words that no execution may meet, and pcs to which none may leave: unknown opcodes, jumps and skips to companions, and
//! jumps before the first word.
use super::{pick, Plant, Planted, Site};
use answers::execution::{Choice, Violation};
use answers::rng::Rng;
use answers::word::{closure, jump, op, setlist_long};

const JUMPS: [u32; 3] = [op::JMP, op::FORPREP, op::FORLOOP];
const SKIPS: [u32; 7] = [op::EQ, op::LT, op::LE, op::TEST, op::TESTSET, op::TFORLOOP, op::LOADBOOL];

/// The jump at the site with another target, if the execution takes it.
fn jump_to(site: &Site, target: i32, noticed: Violation) -> Option<Planted> {
    let fields = site.prototype.fields(site.pc);
    let is_taken = fields.opcode != op::FORLOOP || site.choice == Choice::Off;
    let word = jump(fields.opcode, fields.a, site.pc, target);
    is_taken.then_some(Planted { pc: site.pc, word, noticed })
}

/// A jump to a companion with such a role.
fn jump_to_companion(rng: &mut Rng, site: &Site, is_such: fn([i32; 2]) -> bool) -> Option<Planted> {
    let target = pick(rng, &site.with_role(is_such))?;
    jump_to(site, target as i32, Violation::Companion(target))
}

/// A jump to just before the first word, or as far before it as sBx reaches.
fn jump_before_first(rng: &mut Rng, site: &Site) -> Option<Planted> {
    let farthest = 131_071 - 1 - site.pc as u32;
    let before = if rng.one_in(2) { 1 } else { rng.range(1, farthest) };
    let target = -(before as i32);
    jump_to(site, target, Violation::Exit(target.into()))
}

/// An owner after the skip at the site, if the execution takes it: the word that it skips to becomes a companion.
fn skip_to_companion(site: &Site, owner: u32) -> Option<Planted> {
    let fields = site.prototype.fields(site.pc);
    let is_taken = if fields.opcode == op::LOADBOOL { fields.c != 0 } else { site.choice == Choice::Off };
    let target = site.prototype.with_word(site.pc as i64 + 2).filter(|_| is_taken)?;
    Some(Planted { pc: site.pc + 1, word: owner, noticed: Violation::Companion(target) })
}

/// A CLOSURE of a child that has upvalues.
fn owning_closure(rng: &mut Rng, site: &Site) -> Option<u32> {
    let children = &site.prototype.children;
    let owning: Vec<usize> = (0..children.len()).filter(|child| children[*child] > 0).collect();
    Some(closure(0, pick(rng, &owning)? as u32))
}

pub fn plants() -> Vec<Plant> {
    let unknown = |opcode: u32| Plant {
        name: format!("opcode {opcode}"),
        opcode: None,
        make: Box::new(move |_, site| {
            let word = site.word() & !0x3f | opcode;
            Some(Planted { pc: site.pc, word, noticed: Violation::UnknownOpcode(site.pc) })
        }),
    };
    let mut all: Vec<Plant> = (38..64).map(unknown).collect();
    for opcode in JUMPS {
        all.push(Plant::new(opcode, "to before the first word", jump_before_first));
        all.push(Plant::new(opcode, "to a binding word", |rng, site| {
            jump_to_companion(rng, site, |role| role[1] >= 0)
        }));
        all.push(Plant::new(opcode, "to a SETLIST's extra word", |rng, site| {
            jump_to_companion(rng, site, |role| role[0] >= 0 && role[1] < 0)
        }));
    }
    for opcode in SKIPS {
        all.push(Plant::new(opcode, "to a binding word", |rng, site| {
            skip_to_companion(site, owning_closure(rng, site)?)
        }));
        all.push(Plant::new(opcode, "to a SETLIST's extra word", |_, site| {
            skip_to_companion(site, setlist_long(0, 0))
        }));
    }
    all
}
