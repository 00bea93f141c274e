//! Compares the exported call with the reference's `assemble`: times, goals,
//! instructions, and where ours are. Memory is `bin/memory.rs`.

mod callgrind;
mod instructions;
mod profile;
mod times;

use std::hint::black_box;
use std::process::ExitCode;
use std::{env, fs, io};

use timing::ours::Buffers;
use timing::reference;
use timing::sources::{names, source, sources, Source};

const USAGE: &str = "usage: timing tables [SOURCE...]
       timing times [SOURCE...]
       timing instructions [SOURCE...]
       timing profile [SOURCE...]
       timing run ours|reference SOURCE COUNT
       timing write SOURCE FILE
       timing list
a SOURCE is one of the list, or a file";

fn main() -> ExitCode {
    let arguments: Vec<String> = env::args().skip(1).collect();
    let words: Vec<&str> = arguments.iter().map(String::as_str).collect();
    let done = match words.as_slice() {
        ["tables", chosen @ ..] => sources(chosen).and_then(tables),
        ["times", chosen @ ..] => sources(chosen).map(|sources| {
            times::table(&sources);
        }),
        ["instructions", chosen @ ..] => sources(chosen).and_then(|s| instructions::table(&s)),
        ["profile", chosen @ ..] => sources(chosen).and_then(|s| profile::table(&s)),
        ["run", who, name, count] => run(who, name, count),
        ["write", name, file] => source(name).and_then(|source| fs::write(file, source.text)),
        ["list"] => {
            names().iter().for_each(|name| println!("{name}"));
            Ok(())
        }
        _ => Err(usage()),
    };
    match done {
        Ok(()) => ExitCode::SUCCESS,
        Err(error) => {
            eprintln!("{error}");
            ExitCode::FAILURE
        }
    }
}

fn usage() -> io::Error {
    io::Error::new(io::ErrorKind::InvalidInput, USAGE)
}

/// All tables but that of memory. A profile is of the sources whose goal is
/// missed.
fn tables(sources: Vec<Source>) -> io::Result<()> {
    println!("### Times\n");
    let reached = times::table(&sources);
    println!("\n### Goals\n");
    times::goals(&sources, &reached);
    println!("\n### Instructions\n");
    instructions::table(&sources)?;
    let missed: Vec<Source> = sources
        .into_iter()
        .zip(reached)
        .filter(|(source, reached)| source.goal.times().is_some_and(|times| *reached < times))
        .map(|(source, _)| source)
        .collect();
    if !missed.is_empty() {
        println!("\n### Where a goal is missed\n");
        profile::table(&missed)?;
    }
    Ok(())
}

/// Calls one contender so many times on a source: what a profiler runs.
fn run(who: &str, name: &str, count: &str) -> io::Result<()> {
    let count: u32 = count.parse().map_err(|_| usage())?;
    let text = source(name)?.text;
    match who {
        "ours" => {
            let mut buffers = Buffers::new();
            for _ in 0..count {
                black_box(buffers.assemble(black_box(&text)));
            }
        }
        "reference" => {
            for _ in 0..count {
                let _ = black_box(reference::assemble(black_box(&text)));
            }
        }
        _ => return Err(usage()),
    }
    Ok(())
}
