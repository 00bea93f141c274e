//! The Rust reference, built unchanged, for the programs that ask it or time it;
//! and how it and GNU as are asked and their answers are read, which these
//! programs share.

pub mod asking;
pub mod falcon;
pub mod gnu;
pub mod items;
pub mod random;
pub mod refusals;
pub mod sources;
pub mod statements;
