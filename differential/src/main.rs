//! Asks the Rust reference, built unchanged, and writes down its answers.
//!
//! Each subcommand is one small function here; a generator of cases is a
//! module of its own.

mod cases;
mod encoder;
mod numbers;

use std::path::Path;
use std::process::ExitCode;
use std::{env, fs, io};

use differential::{falcon, gnu, random};
use falcon::asm::assembler::assemble;

const USAGE: &str = "usage: differential numbers DIR
       differential encoder DIR
       differential assemble FILE...
       differential assemble-at BASE FILE...
       differential encode CASE FIELD FIELD FIELD";

fn main() -> ExitCode {
    let arguments: Vec<String> = env::args().skip(1).collect();
    let (name, rest) = match arguments.split_first() {
        Some((name, rest)) => (name.as_str(), rest),
        None => ("", &[][..]),
    };
    let done = match (name, rest) {
        ("numbers", [directory]) => write_cases(directory, &numbers::all_cases().text()),
        ("encoder", [directory]) => {
            encoder::all_cases().and_then(|text| write_cases(directory, &text))
        }
        ("assemble", [_, ..]) => rest.iter().try_for_each(|file| assemble_file(file, 0)),
        ("assemble-at", [base, files @ ..]) if !files.is_empty() => read_base(base)
            .and_then(|base| files.iter().try_for_each(|file| assemble_file(file, base))),
        ("encode", [case, fields @ ..]) => encode_fields(case, fields),
        _ => Err(io::Error::new(io::ErrorKind::InvalidInput, USAGE)),
    };
    match done {
        Ok(()) => ExitCode::SUCCESS,
        Err(error) => {
            eprintln!("{error}");
            ExitCode::FAILURE
        }
    }
}

/// Writes the case list `DIR/cases`; the directory is made if it is missing.
fn write_cases(directory: &str, text: &str) -> io::Result<()> {
    fs::create_dir_all(directory)?;
    fs::write(Path::new(directory).join("cases"), text)
}

fn read_base(base: &str) -> io::Result<u32> {
    base.parse()
        .map_err(|error| io::Error::new(io::ErrorKind::InvalidInput, format!("{base}: {error}")))
}

fn read_source(file: &str) -> io::Result<String> {
    fs::read_to_string(file)
        .map_err(|error| io::Error::new(error.kind(), format!("{file}: {error}")))
}

/// Has the reference lay out one file and prints what came of it. The line is
/// counted from 1, as editors count.
fn assemble_file(file: &str, base: u32) -> io::Result<()> {
    let source = read_source(file)?;
    match assemble(&source, base) {
        Ok(program) => println!(
            "ok {} {} {}",
            program.text.len(),
            program.data.len(),
            program.bss_size
        ),
        Err(error) => println!("no {} {}", error.line + 1, error.msg),
    }
    Ok(())
}

/// Prints the word that the reference makes of an instruction, whatever its
/// fields are.
fn encode_fields(case: &str, fields: &[String]) -> io::Result<()> {
    let fields: Result<Vec<i32>, _> = fields.iter().map(|field| field.parse()).collect();
    let fields = fields.ok().and_then(|fields| fields.try_into().ok());
    let fields = fields.ok_or_else(|| io::Error::new(io::ErrorKind::InvalidInput, USAGE))?;
    println!("{:08X}", encoder::reference_word(case, fields)?);
    Ok(())
}
