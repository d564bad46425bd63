//! Makes an image valid: words with which luad finds an error are replaced until it finds none.
use answers::families::random::{children_of, opcode, word};
use answers::image::{image, Source};
use answers::judge::{judge, Answer};
use answers::rng::Rng;
use answers::word::{bind_register, bind_upvalue, jump, op};

/// A word that is valid at every pc: JMP to the first word.
fn harmless(pc: usize) -> u32 {
    jump(op::JMP, 0, pc, 0)
}

/// A word in place of an executable one: the same opcode with other operands, another opcode, or now and then harmless.
fn another(rng: &mut Rng, source: &Source, pc: usize, children: u32) -> u32 {
    let opcode = match rng.below(8) {
        0 => return harmless(pc),
        1..=3 => opcode(rng),
        _ => source.code[pc] & 0x3f,
    };
    word(rng, opcode, source, pc, source.code.len(), children)
}

/// A word in place of the companion of a CLOSURE.
fn bind(rng: &mut Rng, source: &Source) -> u32 {
    let below = |rng: &mut Rng, limit: u32| rng.below(limit.max(1));
    if rng.one_in(2) {
        bind_register(below(rng, source.stack))
    } else {
        bind_upvalue(below(rng, source.upvalues))
    }
}

/// Replaces the words with which luad finds an error.
fn replace(rng: &mut Rng, sources: &mut [Source], answer: &Answer) {
    let depths: Vec<u32> = sources.iter().map(|source| source.depth).collect();
    for [row, pc, ..] in answer.diagnostics.iter().filter(|[_, _, code, _]| *code != 3) {
        let (row, pc) = (*row as usize, *pc as usize);
        let start: usize = sources[..row].iter().map(|source| source.code.len()).sum();
        let [owner, index] = answer.roles[start + pc];
        let source = &mut sources[row];
        if index < 0 {
            source.code[pc] = another(rng, source, pc, children_of(&depths, row));
        } else if rng.one_in(6) {
            source.code[owner as usize] = harmless(owner as usize);
        } else {
            source.code[pc] = bind(rng, source);
        }
    }
}

/// The prototypes with words replaced until luad finds no error.
pub fn repaired(rng: &mut Rng, mut sources: Vec<Source>) -> Vec<Source> {
    loop {
        let answer = judge(&image(&sources));
        if answer.diagnostics.iter().all(|[_, _, code, _]| *code == 3) {
            return sources;
        }
        replace(rng, &mut sources, &answer);
    }
}

#[cfg(test)]
mod tests {
    use super::*;
    use answers::families::random::sources;

    #[test]
    fn repaired_images_have_no_error_and_keep_their_fields() {
        let mut rng = Rng::new(1);
        for _ in 0..300 {
            let broken = sources(&mut rng, 3, 12);
            let made = repaired(&mut rng, broken.clone());
            assert!(judge(&image(&made)).diagnostics.iter().all(|[_, _, code, _]| *code == 3));
            let fields = |source: &Source| (source.depth, source.stack, source.upvalues, source.code.len());
            assert!(made.iter().map(fields).eq(broken.iter().map(fields)));
        }
    }
}
