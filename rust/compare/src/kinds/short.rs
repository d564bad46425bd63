//! Every code of up to three words out of some forty, over prototypes with few and many registers, constants, upvalues
//! and children.
use super::{Scale, Visit};
use answers::image::{image, Source};
use answers::rng::Rng;
use answers::word::{abc, abx, asbx, bind_register, bind_upvalue, closure, op, setlist_long, RETURN};

/// Words that own companions, bind, jump, skip, name spans, registers, constants, upvalues and children, or do none of
/// these: each within the limits of some prototypes below and outside those of others.
pub fn alphabet() -> [u32; 40] {
    [
        RETURN,
        38,
        63,
        bind_register(0),
        bind_register(1),
        bind_register(300),
        bind_upvalue(0),
        bind_upvalue(256),
        abc(op::MOVE, 250, 249, 0),
        abc(op::MOVE, 251, 250, 0),
        abx(op::LOADK, 0, 0),
        abx(op::GETGLOBAL, 1, 1),
        abx(op::SETGLOBAL, 0, 262_143),
        abc(op::LOADBOOL, 0, 0, 0),
        abc(op::LOADBOOL, 0, 0, 1),
        abc(op::SETUPVAL, 1, 0, 0),
        abc(op::GETTABLE, 0, 1, 256),
        abc(op::SETTABLE, 0, 256, 1),
        abc(op::SELF, 1, 0, 257),
        abc(op::ADD, 0, 257, 256),
        abc(op::CONCAT, 0, 1, 2),
        asbx(op::JMP, 9, 0),
        asbx(op::JMP, 0, 1),
        asbx(op::JMP, 0, -1),
        asbx(op::JMP, 0, -2),
        asbx(op::FORLOOP, 0, -2),
        asbx(op::FORPREP, 247, 1),
        abc(op::EQ, 0, 0, 0),
        abc(op::LT, 2, 256, 1),
        abc(op::LE, 1, 1, 257),
        abc(op::TEST, 0, 0, 1),
        abc(op::TESTSET, 0, 1, 0),
        abc(op::TFORLOOP, 0, 0, 248),
        abc(op::CALL, 0, 2, 3),
        abc(op::TAILCALL, 1, 2, 0),
        abc(op::SETLIST, 0, 1, 1),
        setlist_long(0, 1),
        closure(0, 0),
        closure(1, 0),
        closure(0, 1),
    ]
}

/// Constants, upvalues and stack, and the upvalues of an only child.
pub type Limits = ([u32; 3], Option<u32>);

/// The limits of all prototypes.
pub fn limits() -> Vec<Limits> {
    let mut all = Vec::new();
    for child in [None, Some(0), Some(1), Some(2)] {
        for stack in [0, 1, 2, 250, 251] {
            all.extend([[0, 0], [0, 1], [1, 0], [1, 1]].map(|[k, u]| ([k, u, stack], child)));
        }
    }
    all
}

/// Hands on every code of up to `words` words under these limits.
fn each_code(([constants, upvalues, stack], child): Limits, words: usize, visit: Visit) {
    let main = Source::main(constants, upvalues, stack, &[]);
    let mut sources = vec![main];
    sources.extend(child.map(|upvalues| Source::main(0, upvalues, 2, &[]).at(1)));
    let alphabet = alphabet();
    for len in 0..=words {
        for number in 0..alphabet.len().pow(len as u32) {
            let digit = |place: usize| number / alphabet.len().pow(place as u32) % alphabet.len();
            sources[0].code.clear();
            sources[0].code.extend((0..len).rev().map(|place| alphabet[digit(place)]));
            visit(image(&sources));
        }
    }
}

/// All limits with codes of up to three words; in a quick run up to two, and three for two limits only.
pub fn each(scale: Scale, _: &mut Rng, visit: Visit) {
    for limits in limits() {
        let thorough = scale == Scale::Full || matches!(limits, ([0, 1, 2], Some(1 | 2)));
        each_code(limits, if thorough { 3 } else { 2 }, visit);
    }
}

#[cfg(test)]
mod tests {
    use super::*;

    #[test]
    fn words_are_distinct_and_every_code_is_made() {
        let mut words = alphabet().to_vec();
        words.sort_unstable();
        words.dedup();
        assert_eq!(words.len(), 40);
        let mut count = 0;
        each_code(([0, 0, 2], None), 2, &mut |_| count += 1);
        assert_eq!(count, 1 + 40 + 1_600);
    }
}
