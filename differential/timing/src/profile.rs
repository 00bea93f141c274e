//! Where our call's instructions are, function by function. What the compiler
//! made part of a function counts as that function's.

use std::collections::HashMap;
use std::{fs, io};

use timing::sources::Source;

use crate::callgrind::{counted, Scratch};

/// Functions below this share of the whole are left out.
const LEAST_PERCENT: f64 = 2.0;

pub fn table(sources: &[Source]) -> io::Result<()> {
    println!("| source | our functions, with their percent of the instructions |");
    println!("|---|---|");
    sources.iter().try_for_each(row)
}

fn row(source: &Source) -> io::Result<()> {
    let (file, profile) = (Scratch::new("s"), Scratch::new("callgrind"));
    fs::write(&file.0, &source.text)?;
    let words = [
        format!("--callgrind-out-file={}", profile.0.display()),
        "--toggle-collect=kodhlace_assemble".to_string(),
    ];
    counted("ours", &file.0, 1, &words)?;
    let profile = fs::read_to_string(&profile.0)?;
    let functions = functions(&profile);
    let total: u64 = functions.iter().map(|function| function.1).sum();
    let shares: Vec<String> = functions
        .iter()
        .map(|(name, own)| (name, 100.0 * *own as f64 / total as f64))
        .filter(|(_, percent)| *percent >= LEAST_PERCENT)
        .map(|(name, percent)| format!("`{name}` {percent:.0}"))
        .collect();
    println!("| {} | {} |", source.what, shares.join(", "));
    Ok(())
}

/// Each function with its own instructions, the most first, as callgrind's file
/// has them: a line `fn=`, then lines of a place and a count. The line behind a
/// line `calls=` is what was called, and counts there.
fn functions(profile: &str) -> Vec<(&str, u64)> {
    let mut names: HashMap<&str, &str> = HashMap::new();
    let mut counts: HashMap<&str, u64> = HashMap::new();
    let mut current = "";
    let mut called = false;
    for line in profile.lines() {
        if let Some(name) = line.strip_prefix("fn=") {
            current = numbered(name, &mut names);
        } else if let Some(name) = line.strip_prefix("cfn=") {
            numbered(name, &mut names);
        } else if line.starts_with("calls=") {
            called = true;
        } else if line.starts_with(|first: char| first.is_ascii_digit() || "+-*".contains(first)) {
            let count = line
                .split_whitespace()
                .nth(1)
                .and_then(|count| count.parse().ok());
            if !called {
                *counts.entry(current).or_default() += count.unwrap_or(0);
            }
            called = false;
        }
    }
    let mut functions: HashMap<&str, u64> = HashMap::new();
    for (number, count) in counts {
        let name = names.get(number).copied().unwrap_or(number);
        *functions.entry(outermost(name)).or_default() += count;
    }
    let mut functions: Vec<(&str, u64)> = functions.into_iter().collect();
    functions.sort_by(|a, b| b.1.cmp(&a.1).then(a.0.cmp(b.0)));
    functions
}

/// A function's number. Its name stands behind that the first time only.
fn numbered<'a>(name: &'a str, names: &mut HashMap<&'a str, &'a str>) -> &'a str {
    match name.split_once(' ') {
        Some((number, name)) => {
            names.insert(number, name);
            number
        }
        None => name,
    }
}

/// A function that is within itself has a number behind its name.
fn outermost(name: &str) -> &str {
    name.split_once('\'').map_or(name, |(name, _)| name)
}
