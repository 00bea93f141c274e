//! What the two programs share: the contenders, that they agree, the sources,
//! and how figures are written.

pub mod agreement;
pub mod figures;
pub mod ours;
pub mod reference;
pub mod sources;
