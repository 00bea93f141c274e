//! Holds the layout call, a second model of it and the Rust reference against
//! each other.

pub mod generate;
pub mod gnu;
pub mod list;
pub mod minimize;
pub mod model;
#[cfg(any(feature = "library", test))]
pub mod ours;
pub mod pool;
pub mod reference;
pub mod run;
pub mod shown;
mod strings;
