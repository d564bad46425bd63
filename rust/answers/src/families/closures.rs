//! Closures: binding words of every kind, repeated, truncated and missing ones, and companions that look like owners.
use crate::image::{image, Source};
use crate::list::List;
use crate::rng::Rng;
use crate::word::{abc, abx, bind_register, bind_upvalue, closure, jump, op, setlist_long, RETURN};

/// B of a binding word: around the stack and the upvalues, and where B modulo 256 matters.
fn bound(rng: &mut Rng, limit: u32) -> u32 {
    match rng.below(6) {
        0 => limit,
        1 => limit + 1,
        2 => rng.pick(&[255, 256, 256 + limit, 300, 511]),
        _ => rng.below(limit.max(1)),
    }
}

/// A companion word of a CLOSURE.
fn companion(rng: &mut Rng, main: &Source, children: u32) -> u32 {
    match rng.below(10) {
        0..=3 => bind_register(bound(rng, main.stack)) | rng.below(4) << 6,
        4..=6 => bind_upvalue(bound(rng, main.upvalues)) | rng.below(4) << 14,
        7 => closure(rng.below(main.stack + 2), rng.below(children + 1)),
        8 => rng.pick(&[setlist_long(0, 1), abc(63, 0, 0, 0), abc(op::SETUPVAL, 0, 0, 0), abc(38, 1, 2, 3)]),
        _ => rng.below(64) | rng.below(8) << 23,
    }
}

/// A main prototype that makes closures of its children, some of them again and some truncated.
fn code(rng: &mut Rng, main: &Source, upvalues: &[u32]) -> Vec<u32> {
    let children = upvalues.len() as u32;
    let mut code = Vec::new();
    let words = rng.range(1, 22) as usize;
    while code.len() < words {
        let child = rng.below(children + 1);
        match rng.below(8) {
            0 => code.push(setlist_long(0, 1)),
            1 => code.push(RETURN),
            2 => code.push(jump(op::JMP, 0, code.len(), rng.below(words as u32) as i32)),
            3 => code.push(abc(op::TEST, 0, 0, 0)),
            _ => {
                code.push(closure(rng.below(main.stack + 1), child));
                let owned = upvalues.get(child as usize).copied().unwrap_or(1);
                code.extend((0..owned).map(|_| companion(rng, main, children)));
            }
        }
    }
    code.truncate(words);
    code
}

/// A main prototype with up to four children, one of which may have a child that is bound too.
fn random(rng: &mut Rng) -> Vec<Source> {
    let upvalues: Vec<u32> = (0..rng.range(1, 4)).map(|_| rng.pick(&[0, 1, 1, 2, 3, 5])).collect();
    let mut main = Source::main(1, rng.below(3), rng.range(1, 5), &[]);
    main.code = code(rng, &main, &upvalues);
    let mut sources = vec![main];
    for upvalues in upvalues {
        let mut child = Source::main(0, upvalues, 2, &[]).at(1);
        let inner = rng.below(3);
        if rng.one_in(3) {
            child.code = code(rng, &child, &[inner]);
            child.code.truncate(5);
            sources.push(child);
            sources.push(Source::main(0, inner, 1, &[]).at(2));
        } else {
            sources.push(child);
        }
    }
    sources
}

/// One CLOSURE of a child with an upvalue for each of the given companions.
fn with_companions(companions: &[u32]) -> Vec<Source> {
    let mut code = vec![closure(0, 0)];
    code.extend(companions);
    code.push(RETURN);
    vec![Source::main(1, 2, 3, &code), Source::main(0, companions.len() as u32, 2, &[RETURN]).at(1)]
}

fn add_companions(list: &mut List) {
    let opcodes: Vec<u32> = (0..64).map(|opcode| abx(opcode, 1, 1)).collect();
    for companions in opcodes.chunks(8) {
        list.add("companion", image(&with_companions(companions)));
    }
    for limits in [[0, 1, 2, 3, 4, 254, 255], [256, 257, 258, 259, 300, 510, 511]] {
        list.add("companion", image(&with_companions(&limits.map(bind_register))));
        list.add("companion", image(&with_companions(&limits.map(bind_upvalue))));
    }
}

/// A CLOSURE of a child with `upvalues`, followed by `words` binding words; truncated where there are fewer.
fn add_truncated(list: &mut List) {
    for upvalues in 0..6 {
        for words in 0..6 {
            let mut code = vec![RETURN, closure(0, 1)];
            code.extend((0..words).map(|j| if j % 2 == 0 { bind_register(j) } else { bind_upvalue(j + 256) }));
            let main = Source::main(0, 1, 3, &code);
            let child = |upvalues| Source::main(0, upvalues, 2, &[RETURN]).at(1);
            list.add("truncated", image(&[main, child(1), child(upvalues)]));
        }
    }
}

/// The same child bound twice, the second time whole, partly, or by words that bind nothing.
fn add_repeated(list: &mut List) {
    let [first, second] = [bind_register(0), bind_upvalue(0)];
    let other = abc(op::LOADNIL, 0, 1, 0);
    for again in [[first, first], [first, second], [second, other], [other, first], [other, other]] {
        for cut in 0..3 {
            let code = [closure(0, 0), second, first, closure(1, 0), again[0], again[1]];
            let main = Source::main(0, 1, 2, &code[..code.len() - cut]);
            list.add("repeated", image(&[main, Source::main(0, 2, 2, &[]).at(1)]));
        }
    }
}

pub fn add(list: &mut List) {
    add_companions(list);
    add_truncated(list);
    add_repeated(list);
    for _ in 0..420 {
        let sources = random(&mut list.rng);
        list.add("closure", image(&sources));
    }
}
