//! Instructions of a call, counted by callgrind. They hardly change from run to
//! run, so they show small changes that times do not.

use std::path::Path;
use std::{fs, io};

use timing::figures::{grouped, ratio};
use timing::ours::Buffers;
use timing::sources::{Goal, Source};

use crate::callgrind::{counted, Scratch};

/// So many calls more than one: what they add is theirs, and not the start's.
const MORE: u64 = 4;

/// What the reference reads an ordinary instruction line by. Ours puts a 0 for
/// such a line's word, so that these instructions are counted apart too.
const ORDINARY: &str = "differential::falcon::asm::assembler::parse_instr";

pub fn table(sources: &[Source]) -> io::Result<()> {
    println!("| source | ours | reference | of it `parse_instr` | reference / ours | without `parse_instr` |");
    println!("|---|---|---|---|---|---|");
    let file = Scratch::new("s");
    sources.iter().try_for_each(|source| row(source, &file.0))
}

/// The source goes through a file, so that making it is not counted.
fn row(source: &Source, file: &Path) -> io::Result<()> {
    fs::write(file, &source.text)?;
    let ours = instructions("ours", file)?;
    if source.goal == Goal::Alone {
        println!("| {} | {} | - | - | - | - |", source.what, grouped(ours));
        return Ok(());
    }
    let theirs = instructions("reference", file)?;
    let ordinary = match ordinary_lines(&source.text) {
        0 => 0,
        _ => ordinary_instructions(file)?,
    };
    println!(
        "| {} | {} | {} | {} | {} | {} |",
        source.what,
        grouped(ours),
        grouped(theirs),
        grouped(ordinary),
        ratio(theirs as f64, ours as f64),
        ratio(theirs.saturating_sub(ordinary) as f64, ours as f64)
    );
    Ok(())
}

/// The instructions of one call.
fn instructions(who: &str, file: &Path) -> io::Result<u64> {
    let nowhere = [NO_PROFILE.to_string()];
    let first = counted(who, file, 1, &nowhere)?;
    let all = counted(who, file, 1 + MORE, &nowhere)?;
    Ok(all.saturating_sub(first) / MORE)
}

/// Those of one call that are within the function for ordinary lines.
fn ordinary_instructions(file: &Path) -> io::Result<u64> {
    let within = [
        NO_PROFILE.to_string(),
        format!("--toggle-collect={ORDINARY}"),
    ];
    match counted("reference", file, 1, &within)? {
        0 => Err(io::Error::other(format!(
            "callgrind does not see {ORDINARY}"
        ))),
        count => Ok(count),
    }
}

const NO_PROFILE: &str = "--callgrind-out-file=/dev/null";

fn ordinary_lines(text: &str) -> usize {
    let mut buffers = Buffers::new();
    let answer = buffers.assemble(text);
    buffers.items(&answer).filter(|item| item.kind == 0).count()
}
