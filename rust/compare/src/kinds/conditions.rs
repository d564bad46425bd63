//! The exhaustive kinds have every condition of every code, as document 01 lists them.
use super::{one_word, short, Scale};
use answers::image::{fields, rows, Image};
use answers::judge::judge;
use answers::rng::Rng;
use answers::word::op;
use std::collections::BTreeSet;

/// A code, and the opcode of the word that it is about.
type Condition = (i32, u32);

/// Adds the conditions that luad finds in an image: at instructions, and at companions.
fn add(image: &Image, found: &mut [BTreeSet<Condition>; 2]) {
    let answer = judge(image);
    let words = fields(&image.words);
    let code = rows(&image.table)[0].words as usize;
    for [row, pc, code_number, _] in answer.diagnostics {
        let pc = pc.max(0) as usize;
        if row == 0 && pc < code {
            let companion = usize::from(answer.roles[pc][0] >= 0);
            found[companion].insert((code_number, words[pc] & 0x3f));
        }
    }
}

/// The opcodes from one to another.
fn from_to(first: u32, last: u32) -> Vec<u32> {
    (first..=last).collect()
}

/// The opcodes whose operands make each code from 1 to 16, but 3, at instructions.
fn at_instructions() -> Vec<(i32, Vec<u32>)> {
    let jumps = vec![op::JMP, op::FORLOOP, op::FORPREP];
    let skips = vec![op::LOADBOOL, op::EQ, op::LT, op::LE, op::TEST, op::TESTSET, op::TFORLOOP];
    let registers = (0..38).filter(|opcode| *opcode != op::JMP && !(op::EQ..=op::LE).contains(opcode)).collect();
    let spans = [vec![op::SELF], from_to(op::CALL, op::SETLIST), vec![op::VARARG]].concat();
    let b_register = [op::MOVE, op::LOADNIL, op::GETTABLE, op::SELF, op::TESTSET];
    let rk = [vec![op::SETTABLE], from_to(op::ADD, op::POW), from_to(op::EQ, op::LE)].concat();
    let c_rk = [&rk[..], &[op::GETTABLE, op::SELF]].concat();
    vec![
        (1, vec![op::CLOSURE]),
        (2, vec![op::SETLIST]),
        (4, from_to(38, 63)),
        (5, jumps.clone()),
        (6, [jumps, skips].concat()),
        (7, vec![op::LOADK, op::GETGLOBAL, op::SETGLOBAL]),
        (8, vec![op::GETUPVAL, op::SETUPVAL]),
        (9, from_to(op::EQ, op::LE)),
        (10, registers),
        (11, spans),
        (12, [&b_register[..], &from_to(op::UNM, op::CONCAT), &rk].concat()),
        (13, [&c_rk[..], &[op::CONCAT]].concat()),
        (14, rk),
        (15, c_rk),
        (16, vec![op::CLOSURE]),
    ]
}

#[test]
fn every_condition_occurs_and_no_other() {
    let mut found = [BTreeSet::new(), BTreeSet::new()];
    for each in [one_word::each, short::each] {
        each(Scale::Quick, &mut Rng::new(1), &mut |image| add(&image, &mut found));
    }
    let [instructions, companions] = found;
    let expected =
        at_instructions().into_iter().flat_map(|(code, all)| all.into_iter().map(move |opcode| (code, opcode)));
    let own: BTreeSet<Condition> = instructions.into_iter().filter(|(code, _)| *code != 3).collect();
    assert_eq!(own, expected.collect());
    assert!(companions.contains(&(12, op::MOVE)) && companions.contains(&(8, op::GETUPVAL)));
    let unbound: BTreeSet<u32> = companions.iter().filter(|(code, _)| *code == 17).map(|(_, opcode)| *opcode).collect();
    let others = short::alphabet().map(|word| word & 0x3f).into_iter();
    assert_eq!(unbound, others.filter(|opcode| *opcode != op::MOVE && *opcode != op::GETUPVAL).collect());
}
