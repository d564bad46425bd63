//! The calls of libluad51.a, as include/luad51.h declares them, and how that header lays out their results.
mod declarations;

use answers::calls::Outcome;
use answers::image::{Image, BINDING_BYTES, DIAGNOSTIC_BYTES, ROLE_BYTES};
use declarations::{luad51_bindings, luad51_check, luad51_roles};
use std::fmt;

/// One of the calls; its number is that of its records among roles, bindings and diagnostics.
#[derive(Debug, Clone, Copy, PartialEq, Eq)]
pub enum Call {
    Roles,
    Bindings,
    Check,
}

pub const CALLS: [Call; 3] = [Call::Roles, Call::Bindings, Call::Check];

/// Bytes of a record of each kind.
pub const RECORD_BYTES: [usize; 3] = [ROLE_BYTES, BINDING_BYTES, DIAGNOSTIC_BYTES];

impl fmt::Display for Call {
    fn fmt(&self, f: &mut fmt::Formatter) -> fmt::Result {
        f.write_str(["the roles call", "the bindings call", "the check call"][*self as usize])
    }
}

/// The bit that an accepted check sets.
pub const CHECKED: u64 = 1 << 47;

/// A call's result as the header lays it out: figure + 2^32 * refusal + 2^40 * verdict, and of an accepted check 2^47 more.
pub fn result(call: Call, outcome: Outcome, verdict: u64) -> u64 {
    match outcome {
        Ok(records) if call == Call::Check => records as u64 | verdict << 40 | CHECKED,
        Ok(records) => records as u64,
        Err(refused) => refused.figure as u64 | (refused.refusal as u64) << 32,
    }
}

/// The roles call.
pub fn roles(image: &Image, roles: &mut [u8]) -> u64 {
    let Image { table, words, .. } = image;
    unsafe { luad51_roles(table.as_ptr(), table.len(), words.as_ptr(), words.len(), roles.as_mut_ptr(), roles.len()) }
}

/// The bindings call.
pub fn bindings(image: &Image, roles: &mut [u8], bindings: &mut [u8]) -> u64 {
    let Image { table, words, .. } = image;
    unsafe {
        luad51_bindings(
            table.as_ptr(),
            table.len(),
            words.as_ptr(),
            words.len(),
            roles.as_mut_ptr(),
            roles.len(),
            bindings.as_mut_ptr(),
            bindings.len(),
        )
    }
}

/// The check call.
pub fn check(image: &Image, roles: &mut [u8], diagnostics: &mut [u8]) -> u64 {
    let Image { table, words, warnings, errors, .. } = image;
    unsafe {
        luad51_check(
            table.as_ptr(),
            table.len(),
            words.as_ptr(),
            words.len(),
            *warnings,
            *errors,
            roles.as_mut_ptr(),
            roles.len(),
            diagnostics.as_mut_ptr(),
            diagnostics.len(),
        )
    }
}
