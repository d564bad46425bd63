//! Images and luad's answers for them.
//!
//! The verdict, diagnostics, roles and bindings are luad's own, from its published files; the refusals, the listing format
//! and the executions, which luad does not have, are transcribed from document 01.
pub mod calls;
pub mod chunk;
pub mod counts;
pub mod execution;
pub mod families;
pub mod image;
pub mod judge;
pub mod limits;
pub mod list;
pub mod listings;
pub mod message;
pub mod packcheck;
pub mod refusal;
pub mod repetition;
pub mod rng;
pub mod runs;
pub mod text;
pub mod word;
