//! The refusals in document 01's order, with their figures.
use answers::calls::calls;
use answers::image::{image, le_bytes, Buffers, Image, Source};
use answers::refusal::Refusal::*;
use answers::refusal::{Refusal, Refused};
use answers::word::{closure, RETURN};

/// One diagnostic, one upvalue, two words.
fn base() -> Image {
    let mut image = image(&[Source::main(0, 0, 2, &[closure(0, 0)]), Source::main(0, 1, 2, &[RETURN]).at(1)]);
    image.buffers = Buffers { roles: 16, bindings: 12, diagnostics: 16 };
    image
}

fn refused(refusal: Refusal, figure: usize) -> Option<Refused> {
    Some(Refused { refusal, figure })
}

/// The refusals of the three calls.
fn refusals(image: &Image) -> [Option<Refused>; 3] {
    let calls = calls(image);
    [calls.roles.err(), calls.bindings.err(), calls.check.err()]
}

#[test]
fn exact_fit() {
    let calls = calls(&base());
    assert_eq!([calls.roles, calls.bindings, calls.check], [Ok(2), Ok(1), Ok(1)]);
}

#[test]
fn short_buffers() {
    let mut image = base();
    image.buffers.bindings -= 1;
    assert_eq!(refusals(&image), [None, refused(BufferTooShort, 1), None]);
    image.buffers.diagnostics -= 1;
    assert_eq!(refusals(&image), [None, refused(BufferTooShort, 1), refused(BufferTooShort, 1)]);
    image.buffers.roles -= 1;
    assert_eq!(refusals(&image), [refused(RoleBufferTooShort, 0); 3]);
}

#[test]
fn least_number_first() {
    let mut image = base();
    image.buffers = Buffers::default();
    image.words.push(0);
    assert_eq!(refusals(&image), [refused(WordCountMismatch, 0); 3]);
    image.table = le_bytes(&[0, 1, 0, 0, 2, 1, 1, 0, 1, 256]);
    assert_eq!(refusals(&image), [refused(FieldOverLimit, 1); 3]);
    image.table = le_bytes(&[0, 1, 0, 0, 256, 1, 1, 0, 1, 2, 3, 0, 0, 0, 0]);
    assert_eq!(refusals(&image), [refused(BadDepth, 2); 3]);
    image.words.resize(4_194_305, 0);
    assert_eq!(refusals(&image), [refused(TooLarge, 0); 3]);
    image.table.push(0);
    assert_eq!(refusals(&image), [refused(PartialRow, 0); 3]);
    image.table.clear();
    assert_eq!(refusals(&image), [refused(NoProtos, 0); 3]);
}
