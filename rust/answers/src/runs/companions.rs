//! Owners with all their companions, with some, and with none.
use super::list::List;
use super::with_words;
use crate::execution::Prototype;
use crate::word::{abc, abx, asbx, bind_register, bind_upvalue, closure, op, setlist_long, RETURN};

/// `count` words that bind.
fn bindings(count: u32) -> Vec<u32> {
    (0..count).map(|number| if number % 2 == 0 { bind_register(number) } else { bind_upvalue(number) }).collect()
}

/// A CLOSURE, first or behind a word, of a child of few or many upvalues, followed by 0 to 6 words.
fn add_closures(list: &mut List) {
    for upvalues in [0, 1, 2, 3, 5, 255] {
        for words in 0..7 {
            for before in [&[][..], &[0], &[closure(1, 1)]] {
                let code = [before, &[closure(0, 1)], &bindings(words)[..]].concat();
                let prototype = Prototype { children: vec![0, upvalues], ..with_words(&code) };
                list.add_each("closure", &prototype, &["0101", "1010101010"]);
            }
        }
    }
}

/// A CLOSURE of a child that is missing owns nothing, wherever Bx is.
fn add_missing_children(list: &mut List) {
    for children in [&[][..], &[2], &[2, 1, 3]] {
        for bx in [0, 1, 2, 3, 4, 255, 256, 258, 131_071, 131_072, 262_143] {
            let code = [abx(op::CLOSURE, 0, bx), bind_register(1), bind_upvalue(1), bind_register(2), RETURN];
            let prototype = Prototype { children: children.to_vec(), ..with_words(&code) };
            list.add_each("missing-child", &prototype, &["00000", "11111"]);
        }
    }
}

/// SETLIST with every kind of C, followed by 0 to 3 words.
fn add_setlists(list: &mut List) {
    for c in [0, 1, 2, 255, 256, 511] {
        for b in [0, 1, 256] {
            for words in 0..4 {
                let code = [&[abc(op::SETLIST, 0, b, c)][..], &bindings(words)].concat();
                list.add_each("setlist", &with_words(&code), &["0101"]);
                list.add_each("setlist", &with_words(&[&[0][..], &code].concat()), &["11111"]);
            }
        }
    }
}

/// Truncated owners that a jump or a skip comes to, and jumps to their companions.
fn add_truncated(list: &mut List) {
    for (owner, rest) in [(setlist_long(0, 1), 0), (closure(0, 2), 0), (closure(0, 2), 1), (closure(0, 0), 0)] {
        let tail = [&[owner][..], &bindings(rest)].concat();
        for before in [asbx(op::JMP, 0, 0), asbx(op::FORLOOP, 0, 0), asbx(op::FORLOOP, 0, 1), abc(op::LE, 0, 0, 0)] {
            list.add_each("truncated", &with_words(&[&[before][..], &tail].concat()), &["000", "111"]);
            list.add_each("truncated", &with_words(&[&[before, 0], &tail[..]].concat()), &["000", "111"]);
        }
    }
}

/// One owner after another, and companions that look like owners: these own nothing.
fn add_chains(list: &mut List) {
    let owners = [setlist_long(0, 1), closure(0, 0), closure(0, 1), closure(0, 2), bind_register(0)];
    for first in owners {
        for second in owners {
            for third in owners {
                let code = [first, second, third, setlist_long(0, 2), closure(0, 0), 0, RETURN];
                list.add_each("chain", &with_words(&code), &["00000000"]);
            }
        }
    }
}

pub fn add(list: &mut List) {
    add_closures(list);
    add_missing_children(list);
    add_setlists(list);
    add_truncated(list);
    add_chains(list);
}
