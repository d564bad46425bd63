//! Wrong roles of words.
use super::layout::Layout;
use super::{changed, Variant};
use answers::judge::Answer;

/// The roles of all words; the flags make them wrong.
#[derive(Clone, Copy, Default)]
struct Rule {
    /// A companion that looks like an owner owns the words after it.
    companions_own: bool,
    /// A truncated owner leaves the companions that exist unmarked.
    truncated_unmarked: bool,
}

fn roles(layout: &Layout, rule: Rule) -> Vec<[i32; 2]> {
    let mut all = vec![[-1; 2]; layout.words.len()];
    for row in 0..layout.rows.len() {
        let code = layout.code(row);
        let roles = &mut all[layout.first_word[row]..][..code.len()];
        for (pc, word) in code.iter().enumerate() {
            let (owned, first) = layout.owned(row, *word);
            let unread = roles[pc][0] >= 0 && !rule.companions_own;
            if unread || rule.truncated_unmarked && pc + owned >= code.len() {
                continue;
            }
            for (index, role) in roles[pc + 1..].iter_mut().take(owned).enumerate() {
                *role = [pc as i32, first + index as i32];
            }
        }
    }
    all
}

/// The companions' roles changed.
fn each_companion(answer: &mut Answer, change: fn(&mut [i32; 2])) {
    answer.roles.iter_mut().filter(|role| role[0] >= 0).for_each(change);
}

pub fn variants() -> Vec<Variant> {
    vec![
        changed("a companion that looks like an owner owns words", |image, answer| {
            answer.roles = roles(&Layout::of(image), Rule { companions_own: true, ..Rule::default() });
        }),
        changed("companions of a truncated CLOSURE unmarked", |image, answer| {
            answer.roles = roles(&Layout::of(image), Rule { truncated_unmarked: true, ..Rule::default() });
        }),
        changed("a SETLIST's extra word with index 0", |_, answer| {
            each_companion(answer, |role| role[1] = role[1].max(0));
        }),
        changed("upvalue indices from 1", |_, answer| {
            each_companion(answer, |role| role[1] += i32::from(role[1] >= 0));
        }),
        changed("owners one too far", |_, answer| each_companion(answer, |role| role[0] += 1)),
    ]
}

#[cfg(test)]
mod tests {
    use super::*;
    use answers::families::random::sources;
    use answers::image::image;
    use answers::judge::judge;
    use answers::rng::Rng;

    #[test]
    fn without_flags_they_are_right() {
        let mut rng = Rng::new(3);
        for _ in 0..500 {
            let image = image(&sources(&mut rng, 4, 12));
            assert_eq!(roles(&Layout::of(&image), Rule::default()), judge(&image).roles);
        }
    }
}
