//! Images of nested prototypes, with words as in compiled Lua.
use super::{CONSTANTS, SEED, STACK};
use answers::chunk::children;
use answers::families::valid::{self, Slot};
use answers::image::{image, rows, Image, Source};
use answers::limits::{MAX_DEPTH, MAX_ROWS};
use answers::rng::Rng;
use answers::word::{abc, abx, bind_register, bind_upvalue, closure, op, setlist_long, RETURN};

/// Words of one prototype on average, but for `many_rows` and `few_words`.
const WORDS_PER_PROTO: usize = 256;
/// The depth that a tree by chance has at most.
const DEEPEST_BY_CHANCE: u32 = 6;
/// One of this many words is wrong in a `wrong_here_and_there` image, so that the diagnostic limit is not met.
const WORDS_PER_WRONG: usize = 110;

/// The opcodes of words that own no other and how many of a hundred have each: an estimate for compiled Lua.
const FREQUENCIES: [(u32, u32); 25] = [
    (op::MOVE, 13),
    (op::GETTABLE, 13),
    (op::CALL, 12),
    (op::LOADK, 11),
    (op::GETGLOBAL, 9),
    (op::SETTABLE, 8),
    (op::JMP, 7),
    (op::GETUPVAL, 4),
    (op::EQ, 3),
    (op::TEST, 3),
    (op::SELF, 3),
    (op::LOADBOOL, 1),
    (op::LOADNIL, 1),
    (op::SETGLOBAL, 1),
    (op::SETUPVAL, 1),
    (op::NEWTABLE, 1),
    (op::ADD, 1),
    (op::CONCAT, 1),
    (op::LT, 1),
    (op::RETURN, 1),
    (op::FORPREP, 1),
    (op::FORLOOP, 1),
    (op::TFORLOOP, 1),
    (op::SETLIST, 1),
    (op::VARARG, 1),
];

/// An opcode of compiled Lua, of a word that owns no other.
fn plain_opcode(rng: &mut Rng) -> u32 {
    let mut left = rng.below(100);
    for (opcode, of_hundred) in FREQUENCIES {
        if left < of_hundred {
            return opcode;
        }
        left -= of_hundred;
    }
    unreachable!("the frequencies add up to a hundred")
}

/// A word that owns no other, with an opcode of compiled Lua and any operands.
pub fn plain_word(rng: &mut Rng) -> u32 {
    let opcode = plain_opcode(rng);
    // SETLIST with C = 0 owns a word, so C is odd there.
    let c = u32::from(opcode == op::SETLIST) << 14;
    (rng.bits() as u32) << 6 | c | opcode
}

/// A binding word: of 32 one has any bits, ten bind an upvalue and the others a register.
fn binding_word(rng: &mut Rng) -> u32 {
    match rng.below(32) {
        0 => rng.bits() as u32,
        1..=10 => bind_upvalue(rng.below(STACK)),
        _ => bind_register(rng.below(STACK)),
    }
}

/// The children of a prototype, given by their upvalues, how many CLOSUREs of each it has, and how many other words.
struct Plan<'a> {
    children: &'a [u32],
    closures_of_each: usize,
    others: usize,
}

/// Hands on what stands at each pc: the CLOSUREs of each child, rising, with their binding words, between other words.
fn arrange(rng: &mut Rng, plan: &Plan, mut put: impl FnMut(&mut Rng, Slot)) {
    let (mut child, mut left) = (0, plan.others);
    while child < plan.children.len() || left > 0 {
        let closures = (plan.children.len() - child) as u32;
        if rng.below(closures + left as u32) < closures {
            for _ in 0..plan.closures_of_each {
                put(rng, Slot::Closure(child as u32));
                (0..plan.children[child]).for_each(|_| put(rng, Slot::Binding));
            }
            child += 1;
        } else if left > 1 && rng.one_in(200) {
            put(rng, Slot::Setlist);
            put(rng, Slot::Extra);
            left -= 2;
        } else {
            put(rng, Slot::Plain);
            left -= 1;
        }
    }
}

/// A code with any operands, and RETURN at the end.
fn code(rng: &mut Rng, _: &Source, plan: &Plan) -> Vec<u32> {
    let mut code = Vec::new();
    arrange(rng, plan, |rng, slot| {
        code.push(match slot {
            Slot::Plain => plain_word(rng),
            Slot::Closure(child) => closure(rng.below(STACK), child),
            Slot::Binding => binding_word(rng),
            Slot::Setlist => setlist_long(rng.below(STACK), 0),
            Slot::Extra => rng.bits() as u32,
        })
    });
    code.push(RETURN);
    code
}

/// A code without diagnostics, and RETURN at the end.
fn valid_code(rng: &mut Rng, proto: &Source, plan: &Plan) -> Vec<u32> {
    let mut slots = Vec::new();
    arrange(rng, plan, |_, slot| slots.push(slot));
    slots.push(Slot::Plain);
    valid::code(rng, proto, &slots, plain_opcode)
}

/// How the rows of an image are nested.
#[derive(Clone, Copy)]
pub enum Tree {
    /// Depths by chance: a row may be a child of the one before, or stand anywhere above that.
    Chance,
    /// Each row the first child of the one before, down to the depth that there can be at most; then siblings there; at
    /// the end a second child of each row of the chain. So nearly all rows stand between these two children, at each
    /// depth.
    Chain,
}

impl Tree {
    /// The depth of a row that is not the main one, after a row of the given depth, where `left` rows are left.
    fn next_depth(self, rng: &mut Rng, depth: u32, left: usize) -> u32 {
        match self {
            Tree::Chance => rng.range(1, (depth + 1).min(DEEPEST_BY_CHANCE)),
            Tree::Chain => (depth + 1).min(MAX_DEPTH).min(left as u32),
        }
    }

    /// `rows` rows, without their codes. All but the main one have `least` to `most` upvalues.
    fn rows(self, rng: &mut Rng, rows: usize, [least, most]: [u32; 2]) -> Vec<Source> {
        let source = |depth, upvalues| Source { depth, constants: CONSTANTS, upvalues, stack: STACK, code: Vec::new() };
        let mut sources = vec![source(0, 0)];
        for row in 1..rows {
            let depth = self.next_depth(rng, sources[row - 1].depth, rows - row);
            sources.push(source(depth, rng.range(least, most)));
        }
        sources
    }
}

/// The upvalues of each row's children.
fn child_upvalues(sources: &[Source]) -> Vec<Vec<u32>> {
    let upvalues = |row: usize| sources[row].upvalues;
    let children = children(&rows(&image(sources).table));
    children.into_iter().map(|children| children.into_iter().map(upvalues).collect()).collect()
}

/// What a `nested` image is made of.
struct Shape {
    tree: Tree,
    rows: usize,
    words: usize,
    /// Upvalues of a row at least and at most.
    upvalues: [u32; 2],
    closures_of_each: usize,
    /// Makes the code of a prototype.
    code: fn(&mut Rng, &Source, &Plan) -> Vec<u32>,
}

impl Shape {
    /// A tree by chance with 0 to 5 upvalues a row and one CLOSURE of each child.
    fn new(words: usize, code: fn(&mut Rng, &Source, &Plan) -> Vec<u32>) -> Self {
        let rows = words / WORDS_PER_PROTO;
        Self { tree: Tree::Chance, rows, words, upvalues: [0, 5], closures_of_each: 1, code }
    }

    /// The image: CLOSUREs of each child of each row, and other words as in compiled Lua.
    fn image(&self) -> Image {
        let mut rng = Rng::new(SEED);
        let Self { rows, closures_of_each, .. } = *self;
        let mut sources = self.tree.rows(&mut rng, rows, self.upvalues);
        let children = child_upvalues(&sources);
        let closures: usize = children.iter().flatten().map(|upvalues| 1 + *upvalues as usize).sum();
        let mut left = self.words - closures_of_each * closures - rows;
        for row in 0..rows {
            let others = match rows - row {
                1 => left,
                rest => rng.below((2 * left / rest) as u32 + 1) as usize,
            };
            left -= others;
            let plan = Plan { children: &children[row], closures_of_each, others };
            sources[row].code = (self.code)(&mut rng, &sources[row], &plan);
        }
        image(&sources)
    }
}

/// Words as in compiled Lua, with any operands.
pub fn real_like(words: usize) -> Image {
    Shape::new(words, code).image()
}

/// Words as in compiled Lua, with operands that leave nothing to say of them.
pub fn valid(words: usize) -> Image {
    Shape::new(words, valid_code).image()
}

/// Valid words in as many rows as there can be, in a chain: the worst of nesting for CLOSUREs that name children in
/// rising order.
pub fn many_rows(words: usize) -> Image {
    Shape { tree: Tree::Chain, rows: MAX_ROWS, ..Shape::new(words, valid_code) }.image()
}

/// As many rows as there can be, of 0 to 2 words each.
pub fn few_words(tree: Tree) -> Image {
    let mut rng = Rng::new(SEED);
    let mut sources = tree.rows(&mut rng, MAX_ROWS, [0, 5]);
    sources.iter_mut().for_each(|source| source.code = vec![RETURN; rng.below(3) as usize]);
    image(&sources)
}

/// The valid image with some words replaced by wrong ones.
pub fn wrong_here_and_there(words: usize) -> Image {
    let wrong = [
        63,
        abc(op::MOVE, STACK, 0, 0),
        abc(op::MOVE, 0, STACK, 0),
        abx(op::LOADK, 0, CONSTANTS),
        abc(op::GETUPVAL, 0, 255, 0),
        abc(op::RETURN, 0, STACK + 2, 0),
    ];
    let mut image = valid(words);
    for (word, wrong) in image.words.chunks_mut(4).step_by(WORDS_PER_WRONG).zip(wrong.iter().cycle()) {
        word.copy_from_slice(&wrong.to_le_bytes());
    }
    image
}

/// About half of the words are binding words. The main prototype is so long that some jumps do not reach their target,
/// which gives a few diagnostics.
pub fn many_bindings(words: usize) -> Image {
    Shape { upvalues: [1, 8], closures_of_each: 28, ..Shape::new(words, valid_code) }.image()
}
