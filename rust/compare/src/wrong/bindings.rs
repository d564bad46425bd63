//! Wrong bindings of upvalues.
use super::layout::Layout;
use super::{changed, Variant};
use answers::image::Image;
use answers::judge::Answer;
use answers::word::op;

/// How bindings are made; all but `Right` are wrong.
#[derive(Clone, Copy, PartialEq)]
enum Rule {
    #[cfg_attr(not(test), allow(dead_code))]
    Right,
    FirstWins,
    Clamped,
    OtherOpcodeUnbinds,
    CompanionsBind,
}

/// The binding that a word sets, over the one that stands.
fn bound(rule: Rule, word: u32, pc: i32, stands: [i32; 3]) -> [i32; 3] {
    let b = (word >> 23) as i32;
    let idx = if rule == Rule::Clamped { b.min(255) } else { b % 256 };
    match word & 0x3f {
        _ if rule == Rule::FirstWins && stands[2] >= 0 => stands,
        op::MOVE => [1, idx, pc],
        op::GETUPVAL => [0, idx, pc],
        _ if rule == Rule::OtherOpcodeUnbinds => [0, 0, -1],
        _ => stands,
    }
}

/// The bindings of all upvalues, given the roles of the words.
fn bind(layout: &Layout, roles: &[[i32; 2]], rule: Rule) -> Vec<[i32; 3]> {
    let upvalues = layout.rows.iter().map(|row| row.upvalues as usize).sum();
    let mut all = vec![[0, 0, -1]; upvalues];
    for row in 0..layout.rows.len() {
        let code = layout.code(row);
        for (pc, word) in code.iter().enumerate() {
            let executable = roles[layout.first_word[row] + pc][0] < 0 || rule == Rule::CompanionsBind;
            let Some(child) = layout.closure(row, *word).filter(|_| executable) else { continue };
            let bindings = &mut all[layout.first_upvalue[child]..][..layout.rows[child].upvalues as usize];
            for (binding, at) in bindings.iter_mut().zip(pc + 1..code.len()) {
                *binding = bound(rule, code[at], at as i32, *binding);
            }
        }
    }
    all
}

fn bind_by(rule: Rule, image: &Image, answer: &mut Answer) {
    answer.bindings = bind(&Layout::of(image), &answer.roles, rule);
}

/// The bindings that a word made changed.
fn each_bound(answer: &mut Answer, change: fn(&mut [i32; 3])) {
    answer.bindings.iter_mut().filter(|binding| binding[2] >= 0).for_each(change);
}

pub fn variants() -> Vec<Variant> {
    vec![
        changed("binding index clamped to 255", |image, answer| bind_by(Rule::Clamped, image, answer)),
        changed("the first CLOSURE of a child binds it", |image, answer| bind_by(Rule::FirstWins, image, answer)),
        changed("a word of another opcode unbinds", |image, answer| bind_by(Rule::OtherOpcodeUnbinds, image, answer)),
        changed("CLOSURE among companions binds", |image, answer| bind_by(Rule::CompanionsBind, image, answer)),
        changed("instack 1 for GETUPVAL", |_, answer| each_bound(answer, |binding| binding[0] = 1)),
        changed("instack 0 for MOVE", |_, answer| each_bound(answer, |binding| binding[0] = 0)),
        changed("a binding's pc one less", |_, answer| each_bound(answer, |binding| binding[2] -= 1)),
        changed("pc 0 where nothing is bound", |_, answer| {
            answer.bindings.iter_mut().for_each(|binding| binding[2] = binding[2].max(0));
        }),
    ]
}

#[cfg(test)]
mod tests {
    use super::*;
    use answers::families::random::sources;
    use answers::image::image;
    use answers::judge::judge;
    use answers::rng::Rng;

    #[test]
    fn by_the_right_rule_they_are_right() {
        let mut rng = Rng::new(4);
        for _ in 0..500 {
            let image = image(&sources(&mut rng, 4, 12));
            let answer = judge(&image);
            assert_eq!(bind(&Layout::of(&image), &answer.roles, Rule::Right), answer.bindings);
        }
    }
}
