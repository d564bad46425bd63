//! Executions of one prototype, transcribed from document 01's paragraph "A run" and what it refers to there: the split of
//! words, the roles, and the operands that words name. Nothing here is taken from luad, nor from the definitions that the
//! proofs are about but for two conventions, which tests/answers/README.md names.
//!
//! An execution can be of any prototype, also of one that breaks the rules. Document 01 does not say where it then goes
//! from a word of unknown opcode or from a companion: the first goes on to the next word, the second goes by its bits,
//! but owns nothing.
mod fields;
mod operands;
mod prototype;
mod steps;
mod violations;

pub use fields::Fields;
pub use operands::{named, Operand};
pub use prototype::{prototypes, Prototype};
pub use steps::{execute, Choice, End, Execution};
pub use violations::{may_end, violations, Violation};
