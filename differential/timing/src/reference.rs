//! The reference: the whole of its `assemble`, at base 0 as ours.

use std::hint::black_box;

use differential::falcon::asm::assembler::assemble as reference_assemble;
use differential::falcon::asm::utils::{extract_block_comments, extract_visible_comments};

pub use differential::falcon::asm::errors::AsmError;
pub use differential::falcon::asm::program::Program;

pub fn assemble(text: &str) -> Result<Program, AsmError> {
    reference_assemble(text, 0)
}

/// The two scans for comments that `assemble` begins with. Ours keeps no
/// comments, so they are timed by themselves too.
pub fn comment_scans(text: &str) {
    black_box(extract_visible_comments(text));
    black_box(extract_block_comments(text));
}
