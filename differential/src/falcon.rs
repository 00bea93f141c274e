//! The reference's modules under the names that its own `use` lines expect.
//!
//! Everything but `arch` is the published file itself, read from the papers'
//! folder beside the repository. What the comparison does not call, and the
//! reference's own style, is no matter of ours: hence the `allow` lines.
//!
//! The `rustfmt::skip` lines must stay: without them `cargo fmt` follows the
//! paths and rewrites the reference's files.

#[path = "arch.rs"]
pub mod arch;

pub mod asm;

#[allow(dead_code, unused, clippy::all)]
#[rustfmt::skip]
#[path = "../../../shared/docs/src/crates/raven-engine/src/architectures/riscv32/falcon/encoder/mod.rs"]
pub mod encoder;

#[allow(dead_code, unused, clippy::all)]
#[rustfmt::skip]
#[path = "../../../shared/docs/src/crates/raven-engine/src/architectures/riscv32/falcon/instruction.rs"]
pub mod instruction;
