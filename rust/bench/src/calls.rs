//! The calls of the archive against luad, on the same images.
mod case;
pub mod compare;
mod images;
mod model;
mod table;
pub mod times;
