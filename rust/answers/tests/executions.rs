//! Executions, named operands and what is forbidden, on cases worked by hand from document 01.
use answers::execution::Choice::{Off, On};
use answers::execution::Operand::{self, Child, Constant, Register, Upvalue};
use answers::execution::{execute, may_end, named, prototypes, violations, Choice, End, Prototype, Violation};
use answers::families::worked;
use answers::word::{abc, abx, asbx, bind_register, bind_upvalue, closure, op, setlist_long, RETURN};

/// A prototype with three constants, two upvalues, stack 8, and children of no, one and two upvalues.
fn prototype(words: &[u32]) -> Prototype {
    Prototype { constants: 3, upvalues: 2, stack: 8, children: vec![0, 1, 2], words: words.to_vec() }
}

/// The pcs that an execution meets, and how it stands at its end.
fn run(prototype: &Prototype, choices: &[Choice]) -> (Vec<usize>, End) {
    let execution = execute(prototype, choices).expect("a prototype with words");
    (execution.met, execution.end)
}

/// The same for these words.
fn of(words: &[u32], choices: &[Choice]) -> (Vec<usize>, End) {
    run(&prototype(words), choices)
}

/// What is wrong with an execution.
fn wrong(prototype: &Prototype, choices: &[Choice]) -> Vec<Violation> {
    violations(prototype, &execute(prototype, choices).expect("a prototype with words"))
}

/// Where one step from the word at pc 0 leads, by either choice.
fn ways(words: &[u32]) -> [(Vec<usize>, End); 2] {
    [of(words, &[On]), of(words, &[Off])]
}

/// The step from pc 0 comes to a pc with a word.
fn comes_to(pc: usize) -> (Vec<usize>, End) {
    (vec![0, pc], End::GaveOut(pc))
}

/// The step from pc 0 comes to a pc without a word.
fn leaves_to(pc: i64) -> (Vec<usize>, End) {
    (vec![0], End::Left(pc))
}

/// The main prototype of a worked example; where there are two, the first or the second.
fn example(name: &str, number: usize) -> Prototype {
    let found = worked::examples().into_iter().filter(|(of, _)| *of == name).nth(number);
    prototypes(&found.expect("an example").1).remove(0)
}

#[test]
fn worked_examples() {
    let ends: [(&str, usize, &[usize], End); 11] = [
        ("P1", 0, &[0, 0, 0], End::GaveOut(0)),
        ("P2", 0, &[0], End::Left(-1)),
        ("P3", 0, &[0], End::Left(1)),
        ("P4", 0, &[0], End::Left(1)),
        ("P5", 0, &[0], End::Left(1)),
        ("P6", 0, &[0], End::Left(1)),
        ("P8", 0, &[0], End::Return(0)),
        ("P8", 1, &[0], End::Return(0)),
        ("P9", 0, &[0], End::Left(1)),
        ("P10", 0, &[0], End::Left(2)),
        ("P11", 0, &[0], End::Left(1)),
    ];
    for (name, number, met, end) in ends {
        assert_eq!(run(&example(name, number), &[On, Off]), (met.to_vec(), end), "{name}");
    }
    assert_eq!(run(&example("P5", 0), &[Off]), (vec![0], End::Left(2)));
    assert_eq!(execute(&example("P12", 0), &[On]), None);
    assert_eq!(execute(&example("P13", 1), &[]), None);
}

#[test]
fn what_worked_examples_name() {
    let named = |name: &str, number: usize| named(&example(name, number), 0);
    assert_eq!(named("P1", 0), []);
    assert_eq!(named("P4", 0), []);
    assert_eq!(named("P5", 0), [Register(0), Register(0)]);
    assert_eq!(named("P7", 0), [Register(0), Register(1)]);
    assert_eq!(named("P8", 0), [Register(0)]);
    assert_eq!(named("P9", 0), [Register(0), Register(1), Register(1)]);
    assert_eq!(named("P10", 0), [Register(0), Child(0), Register(300)]);
    assert_eq!(named("P11", 0), [Register(0), Child(0)]);
}

#[test]
fn what_worked_examples_may_not_do() {
    let wrong = |name: &str, number: usize| wrong(&example(name, number), &[On, On]);
    for (name, number) in [("P1", 0), ("P3", 0), ("P5", 0), ("P6", 0), ("P8", 1), ("P11", 0)] {
        assert_eq!(wrong(name, number), [], "{name}");
    }
    assert_eq!(wrong("P2", 0), [Violation::Exit(-1)]);
    assert_eq!(wrong("P4", 0), [Violation::UnknownOpcode(0)]);
    assert_eq!(wrong("P7", 0), [Violation::Outside(0, Register(1))]);
    assert_eq!(wrong("P8", 0), [Violation::Outside(0, Register(0))]);
    assert_eq!(wrong("P9", 0), [Violation::Outside(0, Register(1)); 2]);
    assert_eq!(wrong("P10", 0), [Violation::Outside(0, Register(300))]);
}

#[test]
fn jumps() {
    for opcode in [op::JMP, op::FORPREP] {
        assert_eq!(ways(&[asbx(opcode, 0, 1), 0, 0]), [comes_to(2), comes_to(2)]);
        assert_eq!(ways(&[asbx(opcode, 0, -1), 0, 0]), [comes_to(0), comes_to(0)]);
        assert_eq!(ways(&[asbx(opcode, 0, 2), 0, 0]), [leaves_to(3), leaves_to(3)]);
        assert_eq!(ways(&[asbx(opcode, 0, -131_071)]), [leaves_to(-131_070), leaves_to(-131_070)]);
        assert_eq!(ways(&[asbx(opcode, 0, 131_072)]), [leaves_to(131_073), leaves_to(131_073)]);
    }
    assert_eq!(ways(&[asbx(op::FORLOOP, 0, 1), 0, 0]), [comes_to(1), comes_to(2)]);
    assert_eq!(ways(&[asbx(op::FORLOOP, 0, -1), 0]), [comes_to(1), comes_to(0)]);
    assert_eq!(ways(&[asbx(op::FORLOOP, 0, -2)]), [leaves_to(1), leaves_to(-1)]);
}

#[test]
fn skips() {
    for opcode in [op::EQ, op::LT, op::LE, op::TEST, op::TESTSET, op::TFORLOOP] {
        assert_eq!(ways(&[abc(opcode, 0, 0, 0), 0, 0]), [comes_to(1), comes_to(2)]);
        assert_eq!(ways(&[abc(opcode, 1, 0, 1), 0]), [comes_to(1), leaves_to(2)]);
        assert_eq!(ways(&[abc(opcode, 1, 0, 1)]), [leaves_to(1), leaves_to(2)]);
    }
    for c in [1, 2, 256, 511] {
        assert_eq!(ways(&[abc(op::LOADBOOL, 0, 0, c), 0, 0]), [comes_to(2), comes_to(2)]);
    }
    assert_eq!(ways(&[abc(op::LOADBOOL, 0, 1, 0), 0, 0]), [comes_to(1), comes_to(1)]);
}

#[test]
fn owners() {
    let both = |words: &[u32], way: (Vec<usize>, End)| assert_eq!(ways(words), [way.clone(), way]);
    both(&[closure(0, 0), 0, 0, 0], comes_to(1));
    both(&[closure(0, 1), 0, 0, 0], comes_to(2));
    both(&[closure(0, 2), 0, 0, 0], comes_to(3));
    both(&[closure(0, 3), 0, 0, 0], comes_to(1)); // no such child
    both(&[closure(0, 256), 0, 0, 0], comes_to(1));
    both(&[closure(0, 2), 0, 0], leaves_to(3));
    both(&[closure(0, 2), 0], leaves_to(2)); // truncated
    both(&[closure(0, 2)], leaves_to(1));
    both(&[setlist_long(0, 1), 0, 0], comes_to(2));
    both(&[setlist_long(0, 1)], leaves_to(1));
    both(&[abc(op::SETLIST, 0, 1, 1), 0, 0], comes_to(1));
    both(&[abc(op::SETLIST, 0, 1, 256), 0, 0], comes_to(1));
}

#[test]
fn ends() {
    let call = abc(op::TAILCALL, 0, 1, 0);
    assert_eq!(of(&[0, RETURN, 0], &[On; 5]), (vec![0, 1], End::Return(1)));
    assert_eq!(of(&[0, RETURN, 0], &[Off, Off]), (vec![0, 1], End::Return(1)));
    assert_eq!(of(&[0, RETURN, 0], &[On]), (vec![0, 1], End::GaveOut(1)));
    assert_eq!(of(&[call, 0], &[Off; 5]), (vec![0], End::TailCall(0)));
    assert_eq!(of(&[call, 0], &[On]), (vec![0, 1], End::GaveOut(1)));
    assert_eq!(of(&[call, 0], &[On; 2]), (vec![0, 1], End::Left(2)));
    assert_eq!(of(&[RETURN], &[]), (vec![0], End::GaveOut(0)));
    assert_eq!(of(&[63, 38], &[Off; 4]), (vec![0, 1], End::Left(2)));
}

#[test]
fn a_loop_takes_one_choice_a_step() {
    let words = [asbx(op::FORPREP, 0, 1), 0, asbx(op::FORLOOP, 0, -2), RETURN];
    let choices = [On, Off, On, Off, On, On, Off];
    assert_eq!(of(&words, &choices), (vec![0, 2, 1, 2, 1, 2, 3], End::Return(3)));
    assert_eq!(of(&words, &choices[..6]), (vec![0, 2, 1, 2, 1, 2, 3], End::GaveOut(3)));
    assert_eq!(of(&words, &choices[..3]), (vec![0, 2, 1, 2], End::GaveOut(2)));
}

#[test]
fn a_companion_goes_by_its_bits_and_owns_nothing() {
    let behind = |companion: u32| vec![asbx(op::JMP, 0, 1), setlist_long(0, 0), companion, 0, 0, 0, RETURN];
    let ways = |companion: u32| [On, Off].map(|choice| of(&behind(companion), &[On, choice]).1);
    assert_eq!(ways(closure(0, 2)), [End::GaveOut(3); 2]);
    assert_eq!(ways(setlist_long(0, 0)), [End::GaveOut(3); 2]);
    assert_eq!(ways(asbx(op::JMP, 0, 2)), [End::GaveOut(5); 2]);
    assert_eq!(ways(abc(op::EQ, 0, 0, 0)), [End::GaveOut(3), End::GaveOut(4)]);
    assert_eq!(ways(abc(op::TAILCALL, 0, 0, 0)), [End::GaveOut(3), End::TailCall(2)]);
    assert_eq!(ways(RETURN), [End::Return(2); 2]);
    assert_eq!(ways(63), [End::GaveOut(3); 2]);
    let met = wrong(&prototype(&behind(closure(9, 7))), &[On; 2]);
    assert_eq!(met, [Violation::Companion(2)]);
}

#[test]
fn companions() {
    let of = |words: &[u32]| {
        let companions = prototype(words).companions();
        (0..words.len()).filter(|pc| companions[*pc]).collect::<Vec<_>>()
    };
    assert_eq!(of(&[]), []);
    assert_eq!(of(&[closure(0, 2), 0, 0, 0]), [1, 2]);
    assert_eq!(of(&[closure(0, 2), closure(0, 2), closure(0, 1), closure(0, 1), 0, 0]), [1, 2, 4]);
    assert_eq!(of(&[0, closure(0, 2), 0]), [2]);
    assert_eq!(of(&[setlist_long(0, 0), setlist_long(0, 0), setlist_long(0, 0), 0]), [1, 3]);
    assert_eq!(of(&[abc(op::SETLIST, 0, 0, 1), closure(0, 0), closure(0, 3), 0]), []);
}

/// What a word names at pc 0, before two words that bind register 7 and upvalue 1.
fn names(word: u32) -> Vec<Operand> {
    named(&prototype(&[word, bind_register(7), bind_upvalue(1)]), 0)
}

#[test]
fn registers_and_constants_by_field() {
    for opcode in [op::MOVE, op::LOADNIL, op::UNM, 19, 20, op::TESTSET] {
        assert_eq!(names(abc(opcode, 5, 300, 2)), [Register(5), Register(300)], "{opcode}");
    }
    for opcode in [op::LOADBOOL, op::NEWTABLE, op::TEST, op::CLOSE] {
        assert_eq!(names(abc(opcode, 5, 1, 2)), [Register(5)], "{opcode}");
    }
    for opcode in op::ADD..=op::POW {
        assert_eq!(names(abc(opcode, 5, 255, 256)), [Register(5), Register(255), Constant(0)], "{opcode}");
    }
    for opcode in op::EQ..=op::LE {
        assert_eq!(names(abc(opcode, 1, 511, 2)), [Constant(255), Register(2)], "{opcode}");
    }
    for opcode in [op::GETUPVAL, op::SETUPVAL] {
        assert_eq!(names(abc(opcode, 5, 256, 2)), [Register(5), Upvalue(256)], "{opcode}");
    }
    for opcode in [op::LOADK, op::GETGLOBAL, op::SETGLOBAL] {
        assert_eq!(names(abx(opcode, 5, 70_000)), [Register(5), Constant(70_000)], "{opcode}");
    }
    assert_eq!(names(abc(op::CONCAT, 5, 6, 300)), [Register(5), Register(6), Register(300)]);
    assert_eq!(names(abc(op::GETTABLE, 5, 260, 260)), [Register(5), Register(260), Constant(4)]);
    assert_eq!(names(abc(op::SETTABLE, 5, 260, 6)), [Register(5), Constant(4), Register(6)]);
}

#[test]
fn last_registers_of_spans() {
    let last = |word: u32| names(word)[1..].to_vec();
    assert_eq!(last(abc(op::SELF, 5, 260, 260)), [Register(6), Register(260), Constant(4)]);
    assert_eq!(last(asbx(op::FORPREP, 5, 0)), [Register(8)]);
    assert_eq!(last(asbx(op::FORLOOP, 5, 0)), [Register(8)]);
    assert_eq!(last(abc(op::TFORLOOP, 5, 9, 0)), [Register(7)]);
    assert_eq!(last(abc(op::TFORLOOP, 5, 9, 511)), [Register(518)]);
    assert_eq!(last(abc(op::CALL, 5, 0, 1)), []);
    assert_eq!(last(abc(op::CALL, 5, 1, 0)), [Register(5)]);
    assert_eq!(last(abc(op::CALL, 5, 0, 2)), [Register(5)]);
    assert_eq!(last(abc(op::CALL, 5, 3, 5)), [Register(7), Register(8)]);
    assert_eq!(last(abc(op::TAILCALL, 5, 0, 9)), []);
    assert_eq!(last(abc(op::TAILCALL, 5, 3, 9)), [Register(7)]);
    for opcode in [op::RETURN, op::VARARG] {
        assert_eq!(last(abc(opcode, 5, 0, 9)), []);
        assert_eq!(last(abc(opcode, 5, 1, 9)), []);
        assert_eq!(last(abc(opcode, 5, 2, 9)), [Register(5)]);
        assert_eq!(last(abc(opcode, 5, 511, 9)), [Register(514)]);
    }
    assert_eq!(last(abc(op::SETLIST, 5, 0, 9)), []);
    assert_eq!(last(abc(op::SETLIST, 5, 1, 0)), [Register(6)]);
}

#[test]
fn what_a_closure_names() {
    assert_eq!(names(closure(5, 0)), [Register(5), Child(0)]);
    assert_eq!(names(closure(5, 1)), [Register(5), Child(1), Register(7)]);
    assert_eq!(names(closure(5, 2)), [Register(5), Child(2), Register(7), Upvalue(1)]);
    assert_eq!(names(closure(5, 3)), [Register(5), Child(3)]);
    let others = prototype(&[closure(5, 2), abc(op::SETUPVAL, 0, 9, 0), 63 | 9 << 23]);
    assert_eq!(named(&others, 0), [Register(5), Child(2)]);
}

#[test]
fn what_is_inside() {
    let inside = |operand: Operand| operand.is_inside(&prototype(&[]));
    assert!([Register(7), Constant(2), Upvalue(1), Child(2)].into_iter().all(inside));
    assert!(![Register(8), Constant(3), Upvalue(2), Child(3)].into_iter().any(inside));
}

#[test]
fn which_leaving_is_allowed() {
    let may = |end: End| may_end(&prototype(&[0, 0, RETURN]), end);
    assert!([End::Return(2), End::TailCall(0), End::GaveOut(1)].into_iter().all(may));
    assert!([End::Left(3), End::Left(4), End::Left(131_073)].into_iter().all(may));
    assert!(![End::Left(-1), End::Left(-131_070)].into_iter().any(may));
}

#[test]
fn violations_stand_in_the_order_of_the_execution() {
    let words = [asbx(op::JMP, 0, 2), 63, asbx(op::JMP, 0, -4), closure(8, 1), bind_register(9), asbx(op::JMP, 0, -5)];
    let found = wrong(&prototype(&words), &[On; 9]);
    let closure = [Violation::Outside(3, Register(8)), Violation::Outside(3, Register(9))];
    assert_eq!(found, [&closure[..], &[Violation::UnknownOpcode(1), Violation::Exit(-1)]].concat());
}
