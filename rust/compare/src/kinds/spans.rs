//! Spans of registers that end about the stack, for every stack.
use super::{Scale, Visit};
use answers::image::{image, Source};
use answers::rng::Rng;
use answers::word::{abc, asbx, op};

/// The word of each opcode with a span whose last register is `last`, where it can be: a count out of A and `last`, or
/// a fixed distance.
fn words(a: u32, last: u32) -> Vec<u32> {
    let counted = |more: u32| (last + more).checked_sub(a).filter(|count| *count < 512);
    let mut words = Vec::new();
    words.extend(counted(1).map(|b| abc(op::CALL, a, b, 1)));
    words.extend(counted(2).map(|c| abc(op::CALL, a, 0, c)));
    words.extend(counted(1).map(|b| abc(op::TAILCALL, a, b, 0)));
    words.extend(counted(2).map(|b| abc(op::RETURN, a, b, 0)));
    words.extend(counted(2).map(|b| abc(op::VARARG, a, b, 0)));
    words.extend(counted(0).map(|b| abc(op::SETLIST, a, b, 1)));
    words.extend((last.checked_sub(a + 2)).filter(|c| *c < 512).map(|c| abc(op::TFORLOOP, a, 0, c)));
    if last == a + 1 {
        words.push(abc(op::SELF, a, 0, 256));
    }
    if last == a + 3 {
        words.extend([asbx(op::FORLOOP, a, -1), asbx(op::FORPREP, a, -1)]);
    }
    words
}

pub fn each(scale: Scale, rng: &mut Rng, visit: Visit) {
    for stack in 0..=255_u32 {
        if scale == Scale::Quick && stack > 5 && stack < 248 && !rng.one_in(30) {
            continue;
        }
        let low = [0, 1, 2, stack / 2];
        let near = [4, 3, 2, 1, 0].map(|less| stack.saturating_sub(less));
        let mut firsts: Vec<u32> = low.into_iter().chain(near).chain([255]).filter(|a| *a < 256).collect();
        firsts.sort_unstable();
        firsts.dedup();
        for a in firsts {
            for last in stack.saturating_sub(2)..=stack + 2 {
                words(a, last).iter().for_each(|word| visit(image(&[Source::main(1, 0, stack, &[*word])])));
            }
        }
    }
}
