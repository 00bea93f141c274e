//! The cases for the encoder: one instruction, and its word or its refusal.
//!
//! A word is written down only if two outside encoders agree on it: GNU as
//! and the reference. The refusals 22 and 23 are document 01's own, since the
//! reference lets such fields through; `refusal` is written from that paper.

use std::collections::BTreeSet;
use std::io;

use crate::falcon::encoder::encode;
use crate::falcon::instruction::Instruction;
use crate::gnu;
use crate::random::Random;

/// The values of an instruction's fields, in the order of the enum case; 0
/// where there are fewer than three.
type Values = [i32; 3];

/// What a field holds.
#[derive(Clone, Copy, PartialEq)]
enum Field {
    Register,
    /// 12 signed bits.
    Number,
    Shift,
    /// A branch's distance in bytes.
    Branch,
    /// A `jal`'s distance in bytes.
    Jump,
    /// The upper 20 bits, where they stand in the word.
    Upper,
    Missing,
}

use Field::{Branch, Jump, Missing, Number, Register, Shift, Upper};

/// How GNU as wants the fields written.
#[derive(Clone, Copy)]
enum Written {
    InOrder,
    /// A number before a register in parentheses.
    Address,
    /// The last field is a distance from this instruction.
    Distance,
    /// The upper 20 bits, shifted down.
    Shifted,
}

use Written::{Address, Distance, InOrder, Shifted};

struct Operation {
    case: &'static str,
    fields: [Field; 3],
    written: Written,
    instruction: fn(Values) -> Instruction,
}

macro_rules! operation {
    ($case:ident, $fields:expr, $written:expr) => {
        Operation {
            case: stringify!($case),
            fields: $fields,
            written: $written,
            instruction: |_| Instruction::$case,
        }
    };
    ($case:ident, $fields:expr, $written:expr, $a:ident, $b:ident) => {
        Operation {
            case: stringify!($case),
            fields: $fields,
            written: $written,
            instruction: |[a, b, _]| Instruction::$case {
                $a: a as _,
                $b: b as _,
            },
        }
    };
    ($case:ident, $fields:expr, $written:expr, $a:ident, $b:ident, $c:ident) => {
        Operation {
            case: stringify!($case),
            fields: $fields,
            written: $written,
            instruction: |[a, b, c]| Instruction::$case {
                $a: a as _,
                $b: b as _,
                $c: c as _,
            },
        }
    };
}

const THREE_REGISTERS: [Field; 3] = [Register, Register, Register];
const WITH_NUMBER: [Field; 3] = [Register, Register, Number];
const WITH_SHIFT: [Field; 3] = [Register, Register, Shift];
const WITH_BRANCH: [Field; 3] = [Register, Register, Branch];
const WITH_UPPER: [Field; 3] = [Register, Upper, Missing];
const WITH_JUMP: [Field; 3] = [Register, Jump, Missing];
const NO_FIELD: [Field; 3] = [Missing, Missing, Missing];

/// The instructions, in the order of the reference's enum.
const OPERATIONS: [Operation; 47] = [
    operation!(Add, THREE_REGISTERS, InOrder, rd, rs1, rs2),
    operation!(Sub, THREE_REGISTERS, InOrder, rd, rs1, rs2),
    operation!(And, THREE_REGISTERS, InOrder, rd, rs1, rs2),
    operation!(Or, THREE_REGISTERS, InOrder, rd, rs1, rs2),
    operation!(Xor, THREE_REGISTERS, InOrder, rd, rs1, rs2),
    operation!(Sll, THREE_REGISTERS, InOrder, rd, rs1, rs2),
    operation!(Srl, THREE_REGISTERS, InOrder, rd, rs1, rs2),
    operation!(Sra, THREE_REGISTERS, InOrder, rd, rs1, rs2),
    operation!(Slt, THREE_REGISTERS, InOrder, rd, rs1, rs2),
    operation!(Sltu, THREE_REGISTERS, InOrder, rd, rs1, rs2),
    operation!(Mul, THREE_REGISTERS, InOrder, rd, rs1, rs2),
    operation!(Mulh, THREE_REGISTERS, InOrder, rd, rs1, rs2),
    operation!(Mulhsu, THREE_REGISTERS, InOrder, rd, rs1, rs2),
    operation!(Mulhu, THREE_REGISTERS, InOrder, rd, rs1, rs2),
    operation!(Div, THREE_REGISTERS, InOrder, rd, rs1, rs2),
    operation!(Divu, THREE_REGISTERS, InOrder, rd, rs1, rs2),
    operation!(Rem, THREE_REGISTERS, InOrder, rd, rs1, rs2),
    operation!(Remu, THREE_REGISTERS, InOrder, rd, rs1, rs2),
    operation!(Addi, WITH_NUMBER, InOrder, rd, rs1, imm),
    operation!(Andi, WITH_NUMBER, InOrder, rd, rs1, imm),
    operation!(Ori, WITH_NUMBER, InOrder, rd, rs1, imm),
    operation!(Xori, WITH_NUMBER, InOrder, rd, rs1, imm),
    operation!(Slti, WITH_NUMBER, InOrder, rd, rs1, imm),
    operation!(Sltiu, WITH_NUMBER, InOrder, rd, rs1, imm),
    operation!(Slli, WITH_SHIFT, InOrder, rd, rs1, shamt),
    operation!(Srli, WITH_SHIFT, InOrder, rd, rs1, shamt),
    operation!(Srai, WITH_SHIFT, InOrder, rd, rs1, shamt),
    operation!(Lb, WITH_NUMBER, Address, rd, rs1, imm),
    operation!(Lh, WITH_NUMBER, Address, rd, rs1, imm),
    operation!(Lw, WITH_NUMBER, Address, rd, rs1, imm),
    operation!(Lbu, WITH_NUMBER, Address, rd, rs1, imm),
    operation!(Lhu, WITH_NUMBER, Address, rd, rs1, imm),
    operation!(Jalr, WITH_NUMBER, Address, rd, rs1, imm),
    operation!(Sb, WITH_NUMBER, Address, rs2, rs1, imm),
    operation!(Sh, WITH_NUMBER, Address, rs2, rs1, imm),
    operation!(Sw, WITH_NUMBER, Address, rs2, rs1, imm),
    operation!(Beq, WITH_BRANCH, Distance, rs1, rs2, imm),
    operation!(Bne, WITH_BRANCH, Distance, rs1, rs2, imm),
    operation!(Blt, WITH_BRANCH, Distance, rs1, rs2, imm),
    operation!(Bge, WITH_BRANCH, Distance, rs1, rs2, imm),
    operation!(Bltu, WITH_BRANCH, Distance, rs1, rs2, imm),
    operation!(Bgeu, WITH_BRANCH, Distance, rs1, rs2, imm),
    operation!(Lui, WITH_UPPER, Shifted, rd, imm),
    operation!(Auipc, WITH_UPPER, Shifted, rd, imm),
    operation!(Jal, WITH_JUMP, Distance, rd, imm),
    operation!(Ecall, NO_FIELD, InOrder),
    operation!(Ebreak, NO_FIELD, InOrder),
];

/// The whole file. An error if GNU as cannot be run, or if it and the
/// reference give different words.
pub fn all_cases() -> io::Result<String> {
    let mut random = Random::new(0x656E_636F_6465_7200);
    let mut lists = Vec::new();
    for operation in &OPERATIONS {
        let mut list = BTreeSet::new();
        add_values(&mut list, &operation.fields, &mut random);
        lists.push((operation, list));
    }
    let accepted: Vec<String> = lists
        .iter()
        .flat_map(|(operation, list)| list.iter().map(move |values| (*operation, values)))
        .filter(|(operation, values)| refusal(&operation.fields, values).is_none())
        .map(|(operation, values)| operation.line(values))
        .collect();
    let mut words = gnu::words(&accepted)?.into_iter();
    let mut file = String::new();
    for (operation, list) in &lists {
        for values in list {
            let answer = match refusal(&operation.fields, values) {
                Some(number) => number.to_string(),
                None => operation.word(values, words.next().expect("a word for each line"))?,
            };
            let [a, b, c] = values;
            file.push_str(&format!("{}\t{a}\t{b}\t{c}\t{answer}\n", operation.name()));
        }
    }
    Ok(file)
}

/// The reference's word for an instruction of the list, its fields unchecked.
pub fn reference_word(name: &str, values: Values) -> io::Result<u32> {
    let operation = OPERATIONS.iter().find(|operation| operation.name() == name);
    let operation = operation
        .ok_or_else(|| io::Error::new(io::ErrorKind::InvalidInput, format!("no {name}")))?;
    encode((operation.instruction)(values)).map_err(io::Error::other)
}

// ---------- asking ----------

/// Document 01, "Refused because of the input": a register above 31 is 22;
/// then a field that the word cannot hold is 23.
fn refusal(fields: &[Field; 3], values: &Values) -> Option<u32> {
    let mut pairs = fields.iter().zip(values);
    if pairs
        .clone()
        .any(|(field, value)| *field == Register && *value > 31)
    {
        return Some(22);
    }
    if pairs.any(|(field, value)| !representable(*field, *value)) {
        return Some(23);
    }
    None
}

fn representable(field: Field, value: i32) -> bool {
    match field {
        Register | Missing => true,
        Number => (-2048..=2047).contains(&value),
        Shift => value <= 31,
        Branch => value % 2 == 0 && (-4096..=4094).contains(&value),
        Jump => value % 2 == 0 && (-1_048_576..=1_048_574).contains(&value),
        Upper => value % 4096 == 0,
    }
}

impl Operation {
    fn name(&self) -> String {
        self.case.to_lowercase()
    }

    /// The instruction as GNU as reads it. Every field has to be in range.
    fn line(&self, values: &Values) -> String {
        let operands: Vec<String> = self
            .fields
            .iter()
            .zip(values)
            .filter(|(field, _)| **field != Missing)
            .map(|(field, value)| self.operand(*field, *value))
            .collect();
        let operands = match (self.written, operands.as_slice()) {
            (Address, [first, base, number]) => format!("{first}, {number}({base})"),
            _ => operands.join(", "),
        };
        format!("{} {operands}", self.name())
    }

    fn operand(&self, field: Field, value: i32) -> String {
        match (field, self.written) {
            (Register, _) => format!("x{value}"),
            (_, Distance) => format!(". + ({value})"),
            (_, Shifted) => format!("{}", (value as u32) >> 12),
            _ => format!("{value}"),
        }
    }

    /// The word as the list has it, if the reference gives GNU as's word. It
    /// is asked only about accepted fields: it panics on an odd distance.
    fn word(&self, values: &Values, gnu: u32) -> io::Result<String> {
        let reference = encode((self.instruction)(*values)).map_err(io::Error::other)?;
        if reference != gnu {
            return Err(io::Error::other(format!(
                "{}: GNU as gives {gnu:08X}, the reference {reference:08X}",
                self.line(values)
            )));
        }
        Ok(format!("{gnu:08X}"))
    }
}

// ---------- the questions ----------

/// The cases of one instruction.
fn add_values(list: &mut BTreeSet<Values>, fields: &[Field; 3], random: &mut Random) {
    for base in bases(fields) {
        list.insert(base);
        for (place, field) in fields.iter().enumerate() {
            for value in edges(*field) {
                list.insert(with(base, place, value));
            }
        }
    }
    for (place, field) in fields.iter().enumerate() {
        for value in sweep(*field) {
            list.insert(with(plain(fields), place, value));
        }
    }
    add_double_faults(list, fields);
    add_random(list, fields, random);
}

fn with(mut values: Values, place: usize, value: i32) -> Values {
    values[place] = value;
    values
}

/// Different values for the fields, so that an exchange of two shows.
fn plain(fields: &[Field; 3]) -> Values {
    let of = |place: usize| match fields[place] {
        Register => [10, 21, 7][place],
        Number => 1365,
        Shift => 11,
        Branch => 1364,
        Jump => 349_524,
        Upper => 0x5555_5000,
        Missing => 0,
    };
    [of(0), of(1), of(2)]
}

/// What the other fields hold while one of them takes its edges: different
/// values, all the smallest, all the largest.
fn bases(fields: &[Field; 3]) -> [Values; 3] {
    [
        plain(fields),
        fields.map(|field| in_range(field).0),
        fields.map(|field| in_range(field).1),
    ]
}

/// The smallest and the largest value that a word can hold.
fn in_range(field: Field) -> (i32, i32) {
    match field {
        Register | Shift => (0, 31),
        Number => (-2048, 2047),
        Branch => (-4096, 4094),
        Jump => (-1_048_576, 1_048_574),
        Upper => (i32::MIN, 0x7FFF_F000),
        Missing => (0, 0),
    }
}

fn edges(field: Field) -> Vec<i32> {
    match field {
        Register => vec![0, 1, 2, 15, 16, 30, 31, 32, 255],
        Number => around(&[-2048, -1, 0, 2047, 4095, i32::MIN]),
        Shift => vec![0, 1, 15, 16, 31, 32, 255],
        Branch => around_distances(4096),
        Jump => around_distances(1_048_576),
        Upper => around(&[i32::MIN, -4096, -2048, 0, 2048, 4096, 0x7FFF_F000]),
        Missing => vec![],
    }
}

/// Each number with the one before and the one behind it; behind the largest
/// stands the smallest.
fn around(centres: &[i32]) -> Vec<i32> {
    centres
        .iter()
        .flat_map(|centre| [centre.wrapping_sub(1), *centre, centre.wrapping_add(1)])
        .collect()
}

/// Even and odd distances around both ends of a reach, and around 0.
fn around_distances(reach: i32) -> Vec<i32> {
    let mut list = vec![i32::MIN, i32::MIN + 1, i32::MAX - 1, i32::MAX];
    for centre in [-reach, 0, reach - 2] {
        list.extend(centre - 2..=centre + 2);
    }
    list
}

/// Every register, and every single bit of a number, its complement and its
/// opposite.
fn sweep(field: Field) -> Vec<i32> {
    match field {
        Register => (0..32).chain([33, 63, 64, 128]).collect(),
        Shift => (0..32).chain([33, 63, 64, 128]).collect(),
        Missing => vec![],
        _ => (0..32)
            .map(|bit| 1i32 << bit)
            .flat_map(|number| [number, !number, number.wrapping_neg()])
            .collect(),
    }
}

/// A bad register beside a bad number: the register is refused.
fn add_double_faults(list: &mut BTreeSet<Values>, fields: &[Field; 3]) {
    for (number, field) in fields.iter().enumerate() {
        let mut bad = edges(*field);
        bad.retain(|value| !representable(*field, *value));
        for value in bad {
            for (register, other) in fields.iter().enumerate() {
                if *other == Register {
                    list.insert(with(with(plain(fields), number, value), register, 32));
                }
            }
        }
    }
}

/// Fields in range; registers in range and any number; any fields.
fn add_random(list: &mut BTreeSet<Values>, fields: &[Field; 3], random: &mut Random) {
    for _ in 0..32 {
        list.insert(fields.map(|field| random_in_range(field, random)));
    }
    for _ in 0..8 {
        list.insert(fields.map(|field| match field {
            Register => random_in_range(field, random),
            _ => random_value(field, random),
        }));
    }
    for _ in 0..4 {
        list.insert(fields.map(|field| random_value(field, random)));
    }
}

fn random_in_range(field: Field, random: &mut Random) -> i32 {
    let (least, most) = in_range(field);
    let step = match field {
        Branch | Jump => 2,
        Upper => 4096,
        _ => 1,
    };
    let choices = (i64::from(most) - i64::from(least)) / step + 1;
    (i64::from(least) + step * random.below(choices as usize) as i64) as i32
}

/// Any value that the instruction's own field can have.
fn random_value(field: Field, random: &mut Random) -> i32 {
    match field {
        Register | Shift => random.below(256) as i32,
        Missing => 0,
        _ => {
            let size = (random.magnitude() >> 32) as i32;
            if random.below(2) == 0 {
                size
            } else {
                size.wrapping_neg()
            }
        }
    }
}
