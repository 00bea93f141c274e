//! The opcode constants that the reference's encoder names.
//!
//! This module is ours: the reference's own `arch` is not among the published
//! files. The names are those the encoder uses; the values are taken from the
//! table "RISC-V base opcode map, inst[1:0]=11" of the RISC-V Unprivileged
//! ISA manual (chapter "RV32/64G Instruction Set Listings"). Each value is
//! written as the table gives it: inst[6:5], inst[4:2], then the closing 11.

// The digits are grouped as the table's rows and columns are.
#![allow(clippy::unusual_byte_groupings)]

/// LOAD: row 00, column 000.
pub const OPC_LOAD: u8 = 0b00_000_11;
/// LOAD-FP: row 00, column 001.
pub const OPC_FLW: u8 = 0b00_001_11;
/// OP-IMM: row 00, column 100.
pub const OPC_OPIMM: u8 = 0b00_100_11;
/// AUIPC: row 00, column 101.
pub const OPC_AUIPC: u8 = 0b00_101_11;

/// STORE: row 01, column 000.
pub const OPC_STORE: u8 = 0b01_000_11;
/// STORE-FP: row 01, column 001.
pub const OPC_FSW: u8 = 0b01_001_11;
/// AMO: row 01, column 011.
pub const OPC_AMO: u8 = 0b01_011_11;
/// OP: row 01, column 100.
pub const OPC_RTYPE: u8 = 0b01_100_11;
/// LUI: row 01, column 101.
pub const OPC_LUI: u8 = 0b01_101_11;

/// MADD: row 10, column 000.
pub const OPC_FMADD: u8 = 0b10_000_11;
/// MSUB: row 10, column 001.
pub const OPC_FMSUB: u8 = 0b10_001_11;
/// NMSUB: row 10, column 010.
pub const OPC_FNMSUB: u8 = 0b10_010_11;
/// NMADD: row 10, column 011.
pub const OPC_FNMADD: u8 = 0b10_011_11;
/// OP-FP: row 10, column 100.
pub const OPC_FP: u8 = 0b10_100_11;

/// BRANCH: row 11, column 000.
pub const OPC_BRANCH: u8 = 0b11_000_11;
/// JALR: row 11, column 001.
pub const OPC_JALR: u8 = 0b11_001_11;
/// JAL: row 11, column 011.
pub const OPC_JAL: u8 = 0b11_011_11;
