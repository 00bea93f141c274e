//! The reference's messages as document 01's numbers.
//!
//! A message's first words decide; those that a pseudo and an ordinary line
//! share are told apart by the line's statement.

use crate::falcon::asm::errors::AsmError;
use crate::statements::{pseudo_words, statements};

/// How the messages begin that are given before the pseudos are expanded.
/// None of them can be the message of an item.
const MESSAGES: [(&str, u32); 32] = [
    ("missing section name", 2),
    ("unknown section: ", 3),
    ("missing symbol name in .globl/.global", 4),
    ("expected '.equ name, expr'", 5),
    ("invalid .align: ", 6),
    ("invalid align: ", 6),
    ("invalid .byte: ", 6),
    ("invalid .half: ", 6),
    ("invalid .dword: ", 6),
    ("invalid size: ", 6),
    ("alignment must be positive: ", 7),
    ("size must be positive: ", 7),
    (".byte outside ", 7),
    (".half outside ", 7),
    ("invalid .word: ", 8),
    ("invalid string: ", 9),
    ("invalid .ascii: ", 9),
    ("unknown data directive: ", 10),
    ("unknown .bss directive: ", 11),
    (".bss does not store explicit data", 12),
    ("undefined label in .word: ", 13),
    ("equate redefines existing label: ", 14),
    ("duplicate equate: ", 15),
    ("unsupported operator/paren '", 16),
    ("unexpected character '", 16),
    ("invalid hex number: ", 16),
    ("invalid binary number: ", 16),
    ("invalid number: ", 16),
    ("empty expression", 16),
    ("expected term after operator", 16),
    ("expected '+' or '-'", 16),
    ("unknown symbol in equate '", 17),
];

/// The last number that is given while the lines are read, in their order.
pub const LAST_OF_LINES: u32 = 12;

/// The number of a refusal; none for an ordinary line's, or for `.float`'s
/// operand, which document 01 never comes to.
pub fn number_of(text: &str, error: &AsmError) -> Option<u32> {
    let known = MESSAGES.iter().find(|(msg, _)| error.msg.starts_with(msg));
    match known {
        Some((_, number)) => Some(*number),
        None => item_refusal(text, error),
    }
}

/// The number of a pseudo's message; none for an ordinary line's.
fn item_refusal(text: &str, error: &AsmError) -> Option<u32> {
    let statements = statements(text);
    let found = statements.iter().find(|found| found.line == error.line)?;
    pseudo_words(&found.text)?;
    if error.msg.starts_with("label not found: ") {
        Some(20)
    } else if error.msg.starts_with("li: ") && error.msg.contains("invalid immediate: ")
        || error.msg.starts_with("li: invalid character literal: ")
        || error.msg.starts_with("li: character literal ")
    {
        Some(19)
    } else {
        let words = ["expected '", "invalid r"];
        assert!(words.iter().any(|word| error.msg.contains(word)));
        Some(18)
    }
}
