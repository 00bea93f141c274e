//! The reference's `asm` folder, file by file; see the module above.

#[allow(dead_code, unused, clippy::all)]
#[rustfmt::skip]
#[path = "../../../../shared/docs/src/crates/raven-engine/src/architectures/riscv32/falcon/asm/assembler.rs"]
pub mod assembler;

#[allow(dead_code, unused, clippy::all)]
#[rustfmt::skip]
#[path = "../../../../shared/docs/src/crates/raven-engine/src/architectures/riscv32/falcon/asm/errors.rs"]
pub mod errors;

#[allow(dead_code, unused, clippy::all)]
#[rustfmt::skip]
#[path = "../../../../shared/docs/src/crates/raven-engine/src/architectures/riscv32/falcon/asm/program.rs"]
pub mod program;

#[allow(dead_code, unused, clippy::all)]
#[rustfmt::skip]
#[path = "../../../../shared/docs/src/crates/raven-engine/src/architectures/riscv32/falcon/asm/pseudo.rs"]
pub mod pseudo;

#[allow(dead_code, unused, clippy::all)]
#[rustfmt::skip]
#[path = "../../../../shared/docs/src/crates/raven-engine/src/architectures/riscv32/falcon/asm/utils.rs"]
pub mod utils;
