//! The archive's check call, asked only whether an image passes.
use crate::library::Library;
use answers::image::{Image, DIAGNOSTIC_BYTES, ROLE_BYTES};
use answers::limits::MAX_DIAGNOSTICS;
use archive::{Call, CHECKED};

/// A library, and buffers that fit every image.
pub struct Checker<'a> {
    library: &'a mut dyn Library,
    roles: Vec<u8>,
    diagnostics: Vec<u8>,
}

impl<'a> Checker<'a> {
    pub fn new(library: &'a mut dyn Library) -> Self {
        Self { library, roles: Vec::new(), diagnostics: vec![0; DIAGNOSTIC_BYTES * MAX_DIAGNOSTICS] }
    }

    /// Whether the image is a pass: accepted, with ValidForParser.
    pub fn passes(&mut self, image: &Image) -> bool {
        self.roles.resize(ROLE_BYTES * (image.words.len() / 4), 0);
        self.library.call(Call::Check, image, &mut self.roles, &mut self.diagnostics) >> 32 == CHECKED >> 32
    }
}
