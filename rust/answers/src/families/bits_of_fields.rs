//! Single bits of a row's fields, of the owners' operands and of opcodes, to show which of them are read.
use super::refused::set;
use crate::image::{image, Image, Source};
use crate::list::{List, Plan};
use crate::word::{abc, abx, bind_register, bind_upvalue, closure, op, setlist_long, RETURN};

const FAMILY: &str = "bits-of-fields";
/// Opcodes one bit or one number away from CLOSURE, and 20, which is two bits away.
const BESIDE_CLOSURE: [u32; 8] = [op::CLOSE, op::VARARG, 38, op::FORPREP, 44, 52, op::GETUPVAL, 20];
/// Opcodes one bit or one number away from SETLIST.
const BESIDE_SETLIST: [u32; 7] = [op::CLOSE, op::FORPREP, 38, 42, 50, op::LOADBOOL, op::TFORLOOP];

/// Adds an image with exact buffers, so that none is refused for them.
fn add_exact(list: &mut List, image: Image) {
    list.push(FAMILY, Plan::Near([0; 3]), image);
}

/// The code of a main prototype whose only child has one upvalue.
fn with_child(code: &[u32]) -> Image {
    image(&[Source::main(1, 1, 2, code), Source::main(0, 1, 2, &[RETURN]).at(1)])
}

/// Every field of rows 0 and 1 with 1 added to each of its bytes, and with its last bit set.
fn add_bytes(list: &mut List) {
    let uses = [abx(op::LOADK, 0, 0), bind_upvalue(0), abc(op::MOVE, 2, 0, 0), RETURN];
    let main = [&[closure(0, 0), bind_register(1)], &uses[..]].concat();
    let base = [Source::main(0, 0, 2, &main), Source::main(0, 1, 2, &uses).at(1)];
    add_exact(list, image(&base));
    for (row, source) in base.iter().enumerate() {
        let fields = [source.depth, source.code.len() as u32, source.constants, source.upvalues, source.stack];
        for (field, value) in fields.into_iter().enumerate() {
            for bit in [0, 8, 16, 24, 31] {
                let mut image = image(&base);
                set(&mut image, row, field, value + (1 << bit));
                add_exact(list, image);
            }
        }
    }
}

/// Upvalues and stacks of 2^k, with words on both sides of them; CLOSURE owns 2^k companions or all that exist.
fn add_low_bytes(list: &mut List) {
    for number in (0..8).map(|bit| 1 << bit) {
        let mut code = vec![bind_upvalue(number - 1), bind_upvalue(number), closure(0, 0)];
        code.resize(39, bind_register(1));
        let child = Source::main(0, number, 2, &[]).at(1);
        add_exact(list, image(&[Source::main(0, number, 2, &code), child]));
    }
    for number in (0..8).map(|bit| 1 << bit) {
        let code = [abc(op::MOVE, number - 1, 0, 0), abc(op::MOVE, 0, number, 0)];
        let main = Source::main(0, 0, number, &code);
        add_exact(list, image(&[main.clone(), main.at(1)]));
    }
}

/// Constants of 2^k, a row each, with LOADK of the last one and of the one after, as far as Bx reaches.
fn add_constants(list: &mut List) {
    let numbers: Vec<u32> = (0..31).map(|bit| 1 << bit).collect();
    for numbers in numbers.chunks(11) {
        let row = |(row, number): (usize, &u32)| {
            let code = [number - 1, *number].map(|bx| abx(op::LOADK, 0, bx.min(262_143)));
            Source::main(*number, 0, 2, &code).at(u32::from(row > 0))
        };
        add_exact(list, image(&numbers.iter().enumerate().map(row).collect::<Vec<_>>()));
    }
}

/// CLOSURE with Bx = 2^k, which is no child, and SETLIST with C = 2^k: the next word is not a companion.
fn add_no_owners(list: &mut List) {
    for bit in 0..18 {
        add_exact(list, with_child(&[closure(0, 1 << bit), bind_register(0)]));
    }
    for bit in 0..9 {
        add_exact(list, with_child(&[abc(op::SETLIST, 0, 1, 1 << bit), bind_register(0)]));
    }
}

/// CLOSURE with A = 2^k, and SETLIST with A or B = 2^k: the next word is a companion all the same.
fn add_owners(list: &mut List) {
    let a = (0..8).map(|bit| 1 << bit);
    let b = (0..9).map(|bit| 1 << bit);
    let closures: Vec<u32> = a.clone().map(|a| closure(a, 0)).collect();
    let setlists: Vec<u32> = a.map(|a| setlist_long(a, 0)).chain(b.map(|b| setlist_long(0, b))).collect();
    for owners in [closures, setlists] {
        let code: Vec<u32> = owners.into_iter().flat_map(|owner| [owner, bind_register(0)]).collect();
        add_exact(list, with_child(&code));
    }
}

/// Opcodes with the operands of an owner, CLOSURE of child 0 or SETLIST with C = 0: those beside the owners' alone,
/// and all of them, 16 an image.
fn add_opcodes(list: &mut List) {
    for (beside, b) in [(&BESIDE_CLOSURE[..], 0), (&BESIDE_SETLIST[..], 1)] {
        let words = |opcode: u32| [abc(opcode, 0, b, 0), bind_register(0)];
        for opcode in beside {
            add_exact(list, with_child(&words(*opcode)));
        }
        for opcodes in (0..64).collect::<Vec<u32>>().chunks(16) {
            let code: Vec<u32> = opcodes.iter().copied().flat_map(words).collect();
            add_exact(list, with_child(&code));
        }
    }
}

pub fn add(list: &mut List) {
    add_bytes(list);
    add_low_bytes(list);
    add_constants(list);
    add_no_owners(list);
    add_owners(list);
    add_opcodes(list);
}
