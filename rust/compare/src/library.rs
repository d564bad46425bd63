//! What answers the three calls: the archive, or something else in its place.
use answers::image::{Buffers, Image};
use archive::Call;

/// The length of the call's own buffer; the roles call has none.
pub fn own_len(call: Call, buffers: Buffers) -> usize {
    [0, buffers.bindings, buffers.diagnostics][call as usize]
}

/// Something that answers the calls. `own` is empty and not for use in the roles call.
pub trait Library {
    fn call(&mut self, call: Call, image: &Image, roles: &mut [u8], own: &mut [u8]) -> u64;
}

/// The archive.
pub struct Archive;

impl Library for Archive {
    fn call(&mut self, call: Call, image: &Image, roles: &mut [u8], own: &mut [u8]) -> u64 {
        match call {
            Call::Roles => archive::roles(image, roles),
            Call::Bindings => archive::bindings(image, roles, own),
            Call::Check => archive::check(image, roles, own),
        }
    }
}
