//! The items of a program that the reference laid out, each with its words.

use crate::falcon::asm::program::Program;
use crate::falcon::asm::utils::{parse_imm, split_operands};
use crate::statements::{pseudo_words, statements};

/// A pseudo, or an ordinary line with its one word.
pub struct Item<'p> {
    pub line: usize,
    pub address: u32,
    pub statement: String,
    pub is_ordinary: bool,
    pub words: &'p [u32],
}

/// An opcode's bits, and those of lui and addi.
const OPCODE: u32 = 0x7F;
const LUI: u32 = 0x37;
const ADDI: u32 = 0x13;

/// Where a word has rd, and how far above it rs1.
const RD: u32 = 0xF80;
const RS1_ABOVE_RD: u32 = 8;

/// The bits of an addi above rs1: its number.
const NUMBER: u32 = 0xFFF0_0000;

/// A program's items, in text order; none where its words are not theirs, as where
/// one is a pseudo of which ours knows nothing.
pub fn items<'p>(text: &str, program: &'p Program) -> Option<Vec<Item<'p>>> {
    let addresses = program.line_addrs.iter();
    let mut lines: Vec<_> = addresses.map(|(line, at)| (*line, *at)).collect();
    lines.sort_unstable();
    let mut statements = statements(text).into_iter();
    let mut left = program.text.as_slice();
    let mut items = Vec::with_capacity(lines.len());
    for (line, address) in lines {
        let statement = statements.find(|found| found.line == line)?.text;
        let pseudo = pseudo_words(&statement);
        let count = match pseudo {
            None => 1,
            // Of a li's words the first is a lui if there are two.
            Some(0) => 1 + usize::from(left.first()? & OPCODE == LUI),
            Some(count) => count,
        };
        let (words, behind) = left.split_at_checked(count)?;
        left = behind;
        items.push(Item {
            line,
            address,
            statement,
            is_ordinary: pseudo.is_none(),
            words,
        });
    }
    left.is_empty().then_some(items)
}

/// The items' words as ours are to be: for an li by name always two (W-202), none
/// for an ordinary line, whose word is not compared.
pub fn compared_words(items: &[Item]) -> Vec<Option<u32>> {
    let mut words = Vec::with_capacity(2 * items.len());
    for item in items {
        match pair_by_name(item) {
            Some(pair) => words.extend(pair.map(Some)),
            None if item.is_ordinary => words.push(None),
            None => words.extend(item.words.iter().copied().map(Some)),
        }
    }
    words
}

/// Where the Rust has one word for an li by name, `addi rd, x0, v`: the two that
/// W-202 has, `lui rd, 0` and `addi rd, rd, v`, made of that word's bits.
fn pair_by_name(item: &Item) -> Option<[u32; 2]> {
    let [word] = *item.words else {
        return None;
    };
    if item.is_ordinary || is_number_second(&item.statement) {
        return None;
    }
    assert_eq!(word & !(NUMBER | RD), ADDI, "addi from x0");
    let rd = word & RD;
    Some([rd | LUI, word | rd << RS1_ABOVE_RD])
}

/// Whether the Rust reads an li's second operand as a number.
fn is_number_second(li: &str) -> bool {
    let words: Vec<&str> = li.split_whitespace().skip(1).collect();
    let operands = split_operands(&words.join(" "));
    parse_imm(&operands[1]).is_some()
}
