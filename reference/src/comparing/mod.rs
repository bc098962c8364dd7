//! What the two comparers share: the command line, random numbers, and the other program.

pub mod options;
pub mod program;
pub mod random;
