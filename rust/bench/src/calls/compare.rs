//! Compares a call's answer on every image with luad's, and times nothing.
use super::case::Case;
use super::images::{COMPARED, TIMED};

/// The images, made one after the other, that the calls are compared on.
fn cases() -> impl Iterator<Item = Case> {
    TIMED.into_iter().chain(COMPARED).map(|(name, make)| Case::new(name, make()))
}

pub fn roles() -> Result<(), String> {
    let (mut images, mut words) = (0, 0);
    for mut case in cases() {
        case.compare_roles()?;
        images += 1;
        words += case.words();
    }
    println!("{images} images, {words} words: every role is luad's");
    Ok(())
}

/// Compares the roles and bindings with those that luad's own loading made.
pub fn bindings() -> Result<(), String> {
    let (mut images, mut words, mut upvalues, mut bound) = (0, 0, 0, 0);
    for mut case in cases() {
        bound += case.compare_bindings()?;
        images += 1;
        words += case.words();
        upvalues += case.upvalues();
    }
    println!(
        "{images} images, {words} words, {upvalues} upvalues, {bound} of them bound: every role and binding is luad's"
    );
    Ok(())
}

/// Compares verdicts, diagnostics and roles.
pub fn check() -> Result<(), String> {
    let (mut images, mut words, mut diagnostics) = (0, 0, 0);
    for mut case in cases() {
        case.compare_check()?;
        images += 1;
        words += case.words();
        diagnostics += case.diagnostics();
    }
    println!("{images} images, {words} words, {diagnostics} diagnostics: every verdict, diagnostic and role is luad's");
    Ok(())
}
