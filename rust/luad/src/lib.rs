//! luad's published files as one crate, with stand-ins for the modules of luad-core that were not published.
//!
//! The published files name luad-core, hex and sha2 as crates; here all three are this crate.
extern crate self as hex;
extern crate self as luad_core;
extern crate self as sha2;

#[path = "stand_ins/diagnostic.rs"]
pub mod diagnostic;
#[path = "stand_ins/dialect.rs"]
pub mod dialect;
#[path = "stand_ins/encodings.rs"]
mod encodings;
#[path = "stand_ins/id.rs"]
pub mod id;
#[path = "stand_ins/provenance.rs"]
pub mod provenance;
#[path = "stand_ins/scalar.rs"]
pub mod scalar;

pub use encodings::{encode, Digest, Sha256};

include!(concat!(env!("OUT_DIR"), "/published.rs"));
