//! Images by families: the fixed list, in a small and a large half, and the short codes.
mod bits_of_fields;
mod boundaries;
mod closures;
mod large;
pub mod limit;
mod mixed;
mod opcodes;
pub mod random;
pub mod refused;
mod setlist;
mod shapes;
mod short;
mod targets;
pub mod valid;
pub mod worked;

use crate::calls::Calls;
use crate::image::Image;
use crate::list::List;

/// Seed of the fixed list.
pub const SEED: u64 = 51;

/// Hands on the small images: below 12 rows and 40 words each. One that chance makes larger, under few seeds, is left
/// out.
pub fn small(seed: u64, visit: &mut dyn FnMut(&Image, &Calls)) {
    let mut small = |image: &Image, calls: &Calls| {
        if image.is_small() {
            visit(image, calls);
        }
    };
    let mut list = List::new(seed, &mut small);
    worked::add(&mut list);
    opcodes::add(&mut list);
    targets::add(&mut list);
    closures::add(&mut list);
    setlist::add(&mut list);
    shapes::add(&mut list);
    limit::add(&mut list);
    boundaries::add(&mut list);
    refused::add(&mut list);
    valid::add(&mut list);
    random::add(&mut list);
    bits_of_fields::add(&mut list);
    mixed::add_small(&mut list);
}

/// Hands on every short code; these are not in the fixed list.
pub fn short(visit: &mut dyn FnMut(&Image, &Calls)) {
    short::add(&mut List::new(SEED, visit));
}

/// Hands on the large images.
pub fn large(seed: u64, visit: &mut dyn FnMut(&Image, &Calls)) {
    let mut list = List::new(seed, visit);
    large::add(&mut list);
    mixed::add_large(&mut list);
}
