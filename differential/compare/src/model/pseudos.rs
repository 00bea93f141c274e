//! The nine pseudo-instructions: their spellings, the words they reserve, and
//! the words they become, by the formats of the RISC-V Unprivileged ISA manual.

use std::collections::HashMap;

use super::lines::Item;
use super::marks::mark;
use super::text::{imm, one_spaced, operands, register};
use super::Refusal;

pub enum Kind {
    Ordinary,
    /// One of the four other pseudos.
    Refused,
    /// The record's number, from 1 to 9.
    Pseudo(usize),
}

const LI: usize = 1;
const LA: usize = 2;
const PUSH: usize = 3;
const POP: usize = 4;
const PRINT: usize = 5;
const PRINT_STR: usize = 6;
const READ: usize = 7;
const READ_BYTE: usize = 8;
const RANDOM: usize = 9;

/// The four other pseudos.
const OTHER: usize = 10;

/// Every spelling, its kind, and whether it may end the line.
const SPELLINGS: [(&str, usize, bool); 20] = [
    ("li", LI, false),
    ("la", LA, false),
    ("push", PUSH, false),
    ("pop", POP, false),
    ("print", PRINT, true),
    ("print_str", PRINT_STR, true),
    ("printStr", PRINT_STR, true),
    ("printString", PRINT_STR, true),
    ("read", READ, true),
    ("read_byte", READ_BYTE, true),
    ("readByte", READ_BYTE, true),
    ("random", RANDOM, true),
    ("print_str_ln", OTHER, true),
    ("printStrLn", OTHER, true),
    ("read_half", OTHER, true),
    ("readHalf", OTHER, true),
    ("read_word", OTHER, true),
    ("readWord", OTHER, true),
    ("random_bytes", OTHER, false),
    ("randomBytes", OTHER, false),
];

pub fn kind_of(statement: &[u8]) -> Kind {
    for (name, kind, may_end) in SPELLINGS {
        let is_it = match statement.strip_prefix(name.as_bytes()) {
            Some([]) => {
                mark!(NameEndsLine);
                may_end
            }
            Some([b' ', ..]) => true,
            _ => false,
        };
        if is_it {
            return match kind {
                OTHER => Kind::Refused,
                _ => Kind::Pseudo(kind),
            };
        }
    }
    Kind::Ordinary
}

/// What follows a pseudo's name, white-space runs made one space.
fn after_name(statement: &[u8]) -> Vec<u8> {
    let end = statement.iter().position(|b| *b == b' ');
    one_spaced(&statement[end.unwrap_or(statement.len())..])
}

pub fn reserved_words(kind: usize, statement: &[u8]) -> u64 {
    match kind {
        LI => match operands(&after_name(statement)).get(1) {
            None => {
                mark!(LiFewOperands);
                1
            }
            Some(operand) => Load::of(operand).words(),
        },
        LA | PUSH | POP => 2,
        PRINT => 3,
        PRINT_STR => 11,
        READ => 6,
        READ_BYTE => 4,
        _ => 8,
    }
}

/// What an li loads, by its second operand alone. The words it reserves and the
/// words it becomes both follow from this.
enum Load<'a> {
    /// A readable number from -2048 to 2047: addi.
    Short(i32),
    /// Another readable number: lui and addi.
    Long(i32),
    /// No readable number. W-202: lui with the upper part, 0 included, then addi.
    Name(&'a [u8]),
}

impl<'a> Load<'a> {
    fn of(operand: &'a [u8]) -> Self {
        match imm(operand) {
            Some(value @ -2048..=2047) => Load::Short(value),
            Some(value) => Load::Long(value),
            None => Load::Name(operand),
        }
    }

    fn words(&self) -> u64 {
        match self {
            Load::Short(_) => {
                mark!(LiReservesOne);
                1
            }
            Load::Long(_) => {
                mark!(LiReservesTwo);
                2
            }
            Load::Name(_) => {
                mark!(LiNameReservesTwo);
                2
            }
        }
    }
}

// ---------- instruction formats ----------

const X0: u32 = 0;
const SP: u32 = 2;
const T0: u32 = 5;
const A0: u32 = 10;
const A1: u32 = 11;
const A2: u32 = 12;
const A7: u32 = 17;

const ECALL: u32 = 0x0000_0073;

/// imm[11:0] | rs1 | funct3 | rd | opcode.
fn i_type(imm: i32, rs1: u32, funct3: u32, rd: u32, opcode: u32) -> u32 {
    ((imm as u32) << 20) | (rs1 << 15) | (funct3 << 12) | (rd << 7) | opcode
}

fn addi(rd: u32, rs1: u32, imm: i32) -> u32 {
    i_type(imm, rs1, 0b000, rd, 0b001_0011)
}

fn lw(rd: u32, imm: i32, rs1: u32) -> u32 {
    i_type(imm, rs1, 0b010, rd, 0b000_0011)
}

fn lbu(rd: u32, imm: i32, rs1: u32) -> u32 {
    i_type(imm, rs1, 0b100, rd, 0b000_0011)
}

/// imm[31:12] | rd | opcode; the value's low 12 bits are 0.
fn lui(rd: u32, value: u32) -> u32 {
    value | (rd << 7) | 0b011_0111
}

/// imm[11:5] | rs2 | rs1 | funct3 | imm[4:0] | opcode, for `sw rs2, 0(rs1)`.
fn sw_at_0(rs2: u32, rs1: u32) -> u32 {
    (rs2 << 20) | (rs1 << 15) | (0b010 << 12) | 0b010_0011
}

/// funct7 | rs2 | rs1 | funct3 | rd | opcode.
fn sub(rd: u32, rs1: u32, rs2: u32) -> u32 {
    (0b010_0000 << 25) | (rs2 << 20) | (rs1 << 15) | (rd << 7) | 0b011_0011
}

/// imm[12|10:5] | rs2 | rs1 | funct3 | imm[4:1|11] | opcode.
fn beq(rs1: u32, rs2: u32, distance: i32) -> u32 {
    let d = distance as u32;
    let upper = ((d >> 12 & 1) << 31) | ((d >> 5 & 0x3F) << 25);
    let lower = ((d >> 1 & 0xF) << 8) | ((d >> 11 & 1) << 7);
    upper | (rs2 << 20) | (rs1 << 15) | lower | 0b110_0011
}

/// imm[20|10:1|11|19:12] | rd | opcode.
fn jal(rd: u32, distance: i32) -> u32 {
    let d = distance as u32;
    let upper = ((d >> 20 & 1) << 31) | ((d >> 1 & 0x3FF) << 21);
    let lower = ((d >> 11 & 1) << 20) | ((d >> 12 & 0xFF) << 12);
    upper | lower | (rd << 7) | 0b110_1111
}

/// lui and addi that leave the value in rd, modulo 2^32.
fn pair(rd: u32, value: u32) -> [u32; 2] {
    let upper = value.wrapping_add(0x800) & 0xFFFF_F000;
    let lower = value.wrapping_sub(upper) as i32;
    [lui(rd, upper), addi(rd, rd, lower)]
}

// ---------- expansions ----------

/// The words, and the index of each item's first.
pub fn emit(
    items: &[Item<'_>],
    labels: &HashMap<&[u8], u32>,
    values: &HashMap<&[u8], i64>,
    edge: &mut bool,
) -> Result<(Vec<u32>, Vec<usize>), Refusal> {
    let mut words = Vec::new();
    let mut firsts = Vec::with_capacity(items.len());
    for item in items {
        firsts.push(words.len());
        if item.kind == 0 {
            words.push(0);
            continue;
        }
        let expanded = expand(item, labels, values, edge);
        words.extend(expanded.map_err(|number| Refusal::new(number, item.line))?);
    }
    Ok((words, firsts))
}

fn expand(
    item: &Item<'_>,
    labels: &HashMap<&[u8], u32>,
    values: &HashMap<&[u8], i64>,
    edge: &mut bool,
) -> Result<Vec<u32>, u8> {
    let rest = after_name(item.source.bytes);
    let operands = operands(&rest);
    let wanted = if matches!(item.kind, LI | LA) { 2 } else { 1 };
    if operands.len() != wanted {
        match operands.len() < wanted {
            true => mark!(OperandsFew),
            false => mark!(OperandsMany),
        }
        return Err(18);
    }
    let first = register(operands[0]);
    if matches!(item.kind, PRINT_STR | READ | READ_BYTE) {
        if first.is_some() {
            mark!(RegisterForLabel);
            return Err(18);
        }
        let address = find(operands[0], labels, edge)?;
        return Ok(match item.kind {
            PRINT_STR => {
                mark!(PrintStr);
                print_str(address)
            }
            READ => {
                mark!(Read);
                read(address)
            }
            _ => {
                mark!(ReadByte);
                read_byte(address)
            }
        });
    }
    let Some(rd) = first else {
        mark!(RegisterMissing);
        return Err(18);
    };
    match item.kind {
        LI => li(rd, operands[1], values),
        LA => {
            let address = find(operands[1], labels, edge)?;
            mark!(La);
            Ok(pair(rd, address).to_vec())
        }
        PUSH => {
            mark!(Push);
            Ok(vec![addi(SP, SP, -4), sw_at_0(rd, SP)])
        }
        POP => {
            mark!(Pop);
            Ok(vec![lw(rd, 0, SP), addi(SP, SP, 4)])
        }
        PRINT => {
            mark!(Print);
            Ok(vec![addi(A7, X0, 1000), addi(A0, rd, 0), ECALL])
        }
        _ => {
            mark!(Random);
            Ok(random(rd))
        }
    }
}

/// A label's address.
fn find(name: &[u8], labels: &HashMap<&[u8], u32>, edge: &mut bool) -> Result<u32, u8> {
    let Some(address) = labels.get(name) else {
        mark!(LabelNotFound);
        return Err(20);
    };
    if (0x7FFF_F800..=0x7FFF_FFFF).contains(address) {
        mark!(LaEdge);
        *edge = true;
    }
    if *address > 0x7FFF_FFFF {
        mark!(LaUpper);
    }
    Ok(*address)
}

fn li(rd: u32, operand: &[u8], values: &HashMap<&[u8], i64>) -> Result<Vec<u32>, u8> {
    Ok(match Load::of(operand) {
        Load::Short(value) => {
            match operand[0] {
                b'\'' => mark!(LiLiteral),
                _ => mark!(LiNumberOne),
            }
            vec![addi(rd, X0, value)]
        }
        Load::Long(value) => {
            mark!(LiNumberTwo);
            pair(rd, value as u32).to_vec()
        }
        Load::Name(name) => {
            let value = equate(name, values)?;
            match value {
                -2048..=2047 => mark!(LiNameUpperZero),
                _ => mark!(LiNameUpper),
            }
            pair(rd, value as u32).to_vec()
        }
    })
}

/// The value that an li takes by an equate's name: of 32 signed bits.
fn equate(name: &[u8], values: &HashMap<&[u8], i64>) -> Result<i32, u8> {
    // What begins with a quote is a malformed literal, also where an equate has
    // that name.
    if name[0] == b'\'' {
        mark!(LiLiteralBad);
        return Err(19);
    }
    let Some(value) = values.get(name) else {
        mark!(LiUnknown);
        return Err(19);
    };
    i32::try_from(*value).map_err(|_| {
        mark!(LiEquateBeyond);
        19
    })
}

/// write(1, label, length of the string there).
fn print_str(address: u32) -> Vec<u32> {
    let [upper, lower] = pair(A1, address);
    vec![
        upper,
        lower,
        addi(A2, A1, 0),
        lbu(T0, 0, A2),
        beq(T0, X0, 12),
        addi(A2, A2, 1),
        jal(X0, -12),
        sub(A2, A2, A1),
        addi(A0, X0, 1),
        addi(A7, X0, 64),
        ECALL,
    ]
}

/// read(0, label, 256).
fn read(address: u32) -> Vec<u32> {
    let [upper, lower] = pair(A1, address);
    vec![
        addi(A0, X0, 0),
        upper,
        lower,
        addi(A2, X0, 256),
        addi(A7, X0, 63),
        ECALL,
    ]
}

fn read_byte(address: u32) -> Vec<u32> {
    let [upper, lower] = pair(A0, address);
    vec![addi(A7, X0, 1010), upper, lower, ECALL]
}

/// getrandom into a slot on the stack, and from there into the register.
fn random(rd: u32) -> Vec<u32> {
    vec![
        addi(SP, SP, -4),
        addi(A7, X0, 278),
        addi(A0, SP, 0),
        addi(A1, X0, 4),
        addi(A2, X0, 0),
        ECALL,
        lw(rd, 0, SP),
        addi(SP, SP, 4),
    ]
}
