//! Holds the layout call against a second model and the Rust reference.

use std::process::ExitCode;
use std::time::Instant;
use std::{env, fs, io};

use compare::generate::{Generator, Kind};
use compare::model::{self, Lent};
use compare::{gnu, list, pool, reference, run, shown};

const USAGE: &str = "usage: compare run --seed S --count N [--kind K]
       compare one FILE BASE
       compare answer FILE BASE
       compare list FILE
       compare gnu-strings [--seed S] [--count N]
       compare hostile --count N [--seed S]
kinds: lines equates data pseudos mutate many built short limits hostile strings";

/// The seed of the list, and of runs that name none.
const SEED: u64 = 1;

/// The lines of strings that GNU as is asked for.
const GNU_LINES: u64 = 100_000;

fn main() -> ExitCode {
    let arguments: Vec<String> = env::args().skip(1).collect();
    let words: Vec<&str> = arguments.iter().map(String::as_str).collect();
    let done = match words.split_first() {
        Some((&"run", options)) => run_all(options),
        Some((&"one", [file, base])) => one(file, base),
        Some((&"answer", [file, base])) => answer(file, base),
        Some((&"list", [file])) => write_list(file),
        Some((&"gnu-strings", options)) => gnu_strings(options),
        Some((&"hostile", options)) => hostile(options),
        _ => Err(invalid(USAGE)),
    };
    match done {
        Ok(code) => code,
        Err(error) => {
            eprintln!("{error}");
            ExitCode::FAILURE
        }
    }
}

fn invalid(message: &str) -> io::Error {
    io::Error::new(io::ErrorKind::InvalidInput, message)
}

struct Options {
    seed: u64,
    count: Option<u64>,
    kind: Option<Kind>,
}

fn options(words: &[&str]) -> io::Result<Options> {
    let mut options = Options {
        seed: SEED,
        count: None,
        kind: None,
    };
    for pair in words.chunks(2) {
        match pair {
            ["--seed", seed] => options.seed = number(seed)?,
            ["--count", count] => options.count = Some(number(count)?),
            ["--kind", kind] => {
                options.kind = Some(Kind::named(kind).ok_or_else(|| invalid(USAGE))?)
            }
            _ => return Err(invalid(USAGE)),
        }
    }
    Ok(options)
}

fn number(word: &str) -> io::Result<u64> {
    word.parse()
        .map_err(|_| invalid(&format!("{word} is no number")))
}

/// How a count is parted among the kinds without a total, of 1,000. Those of
/// `many` are long, so that few of them take as much time as many others.
const SHARES: [(Kind, u64); 8] = [
    (Kind::Lines, 180),
    (Kind::Equates, 179),
    (Kind::Data, 120),
    (Kind::Pseudos, 150),
    (Kind::Mutate, 140),
    (Kind::Many, 1),
    (Kind::Hostile, 70),
    (Kind::Strings, 160),
];

/// The sources of each kind: all limits and all that are built, the short ones
/// up to half of the count, the rest by their shares.
fn parts(options: &Options) -> io::Result<Vec<(Kind, u64)>> {
    if let Some(kind) = options.kind {
        let count = options.count.or(kind.total());
        return Ok(vec![(kind, count.ok_or_else(|| invalid(USAGE))?)]);
    }
    let count = options.count.ok_or_else(|| invalid(USAGE))?;
    let total = |kind: Kind| kind.total().unwrap_or(0);
    let limits = total(Kind::Limits).min(count);
    let built = total(Kind::Built).min(count - limits);
    let short = total(Kind::Short).min((count - limits - built) / 2);
    let left = count - limits - built - short;
    let mut parts: Vec<_> = SHARES
        .iter()
        .map(|(kind, share)| (*kind, left * share / 1_000))
        .collect();
    parts.push((Kind::Built, built));
    parts.push((Kind::Short, short));
    parts.push((Kind::Limits, limits));
    Ok(parts)
}

fn run_all(words: &[&str]) -> io::Result<ExitCode> {
    let options = options(words)?;
    let parts = parts(&options)?;
    let generator = Generator::new(options.seed, pool::pool()?);
    let started = Instant::now();
    let tally = run::run(&generator, &parts);
    tally.print();
    println!(
        "{} seconds, seed {}",
        started.elapsed().as_secs(),
        options.seed
    );
    Ok(match tally.findings {
        0 => ExitCode::SUCCESS,
        _ => ExitCode::FAILURE,
    })
}

/// A file's text, and a decimal base for it; the reference can be asked then.
fn read(file: &str, base: &str) -> io::Result<(Vec<u8>, u32)> {
    let text =
        fs::read(file).map_err(|error| io::Error::new(error.kind(), format!("{file}: {error}")))?;
    let base = u32::try_from(number(base)?).map_err(|_| invalid("a base has 32 bits"))?;
    differential::asking::silence_panics();
    Ok((text, base))
}

/// Prints every answer for one file, with all buffers of full size.
fn one(file: &str, base: &str) -> io::Result<ExitCode> {
    let (text, base) = read(file, base)?;
    let (answer, trace) = model::assemble(&text, base, Lent::FULL);
    println!(
        "model: number {} at {}, {:?}",
        answer.number, answer.line, answer.counts
    );
    let words: String = answer
        .words
        .iter()
        .map(|word| format!("{word:08X} "))
        .collect();
    println!("  words: {words}");
    for (name, bytes) in [
        ("data", &answer.data),
        ("labels", &answer.labels),
        ("equates", &answer.equates),
        ("items", &answer.items),
    ] {
        let bytes: String = bytes.iter().map(|byte| format!("{byte:02X}")).collect();
        println!("  {name}: {bytes}");
    }
    println!("reference: {}", reference::show(&text, base));
    let held = reference::hold(&text, base, &answer, &trace, true);
    let is_held = !matches!(held, reference::Held::Differs(_));
    match held {
        reference::Held::Same => println!("model and reference: the same"),
        reference::Held::Out(reason) => {
            println!("model and reference: outside the domain: {reason}")
        }
        reference::Held::Differs(difference) => {
            println!("model and reference: DIFFER: {difference}")
        }
    }
    let is_ours = one_of_ours(&text, base, &answer);
    Ok(match is_held && is_ours {
        true => ExitCode::SUCCESS,
        false => ExitCode::FAILURE,
    })
}

#[cfg(feature = "library")]
fn one_of_ours(text: &[u8], base: u32, answer: &model::Answer) -> bool {
    let mut ours = compare::ours::Ours::new();
    print!("ours: {}", ours.show(text, base, Lent::FULL));
    let difference = ours.differs(text, base, Lent::FULL, compare::ours::COUNTS, answer);
    match &difference {
        None => println!("ours: the model's answer"),
        Some(difference) => println!("ours: DIFFERS: {difference}"),
    }
    difference.is_none()
}

#[cfg(not(feature = "library"))]
fn one_of_ours(_: &[u8], _: u32, _: &model::Answer) -> bool {
    println!("ours: not linked");
    true
}

/// Prints the model's answer for one file, with all buffers of full size, once
/// it is held to the reference: nothing is printed of an answer that differs.
fn answer(file: &str, base: &str) -> io::Result<ExitCode> {
    let (text, base) = read(file, base)?;
    let (answer, trace) = model::assemble(&text, base, Lent::FULL);
    let out = match reference::hold(&text, base, &answer, &trace, true) {
        reference::Held::Same => None,
        reference::Held::Out(reason) => Some(reason),
        reference::Held::Differs(difference) => {
            eprintln!("model and reference differ: {difference}");
            return Ok(ExitCode::FAILURE);
        }
    };
    print!("{}", shown::answer(&answer));
    if let Some(reason) = out {
        println!("outside the domain: {reason}");
    }
    Ok(ExitCode::SUCCESS)
}

fn write_list(file: &str) -> io::Result<ExitCode> {
    let generator = Generator::new(SEED, pool::pool()?);
    let list = list::list(&generator)?;
    fs::write(file, &list.text)?;
    println!("{} cases of {} looked at", list.cases, list.looked_at);
    println!(
        "{} bytes, the longest line {}",
        list.text.len(),
        list.longest
    );
    println!("{} of {} branches", list.marks, model::marks::NAMES.len());
    println!("{} pairs of a branch and a number", list.pairs_with_numbers);
    println!("{} pairs of branches", list.pairs_of_marks);
    for (number, count) in &list.by_number {
        println!("{count:>6} {number}");
    }
    for finding in &list.findings {
        println!("FINDING {finding}");
    }
    Ok(match list.findings.is_empty() {
        true => ExitCode::SUCCESS,
        false => ExitCode::FAILURE,
    })
}

/// Lines of strings, by the model and by GNU as.
fn gnu_strings(words: &[&str]) -> io::Result<ExitCode> {
    let options = options(words)?;
    let lines = gnu::lines(options.seed, options.count.unwrap_or(GNU_LINES) as usize);
    let differing = gnu::differing(&lines)?;
    for difference in differing.iter().take(20) {
        println!("{difference}");
    }
    println!("{} lines, {} differ", lines.len(), differing.len());
    Ok(match differing.len() {
        0 => ExitCode::SUCCESS,
        _ => ExitCode::FAILURE,
    })
}

/// Hostile bytes and the sources at limits, each on buffers of exactly the
/// lent lengths, to be run under a tool that watches memory.
#[cfg(feature = "library")]
fn hostile(words: &[&str]) -> io::Result<ExitCode> {
    let options = options(words)?;
    let count = options.count.ok_or_else(|| invalid(USAGE))?;
    let generator = Generator::new(options.seed, pool::pool()?);
    let (limits, mut findings) = (Kind::Limits.total().unwrap_or(0), 0);
    let random = [
        Kind::Hostile,
        Kind::Strings,
        Kind::Mutate,
        Kind::Lines,
        Kind::Hostile,
        Kind::Equates,
        Kind::Data,
        Kind::Pseudos,
    ];
    for number in 0..count {
        // One in sixteen stands at a limit, until each has been there.
        let (kind, index) = match (number % 16, number / 16) {
            (15, index) if index < limits => (Kind::Limits, index),
            _ => (random[number as usize % random.len()], number),
        };
        let case = generator.case(kind, index);
        let (answer, _) = model::assemble(&case.text, case.base, case.lent);
        if !compare::ours::exact_call(&case.text, case.base, case.lent, &answer) {
            findings += 1;
            println!(
                "FINDING in {} {index}: {}",
                kind.name(),
                run::escape(&case.text)
            );
        }
    }
    println!("{count} texts, {findings} findings");
    Ok(match findings {
        0 => ExitCode::SUCCESS,
        _ => ExitCode::FAILURE,
    })
}

#[cfg(not(feature = "library"))]
fn hostile(_: &[&str]) -> io::Result<ExitCode> {
    Err(invalid("this program was built without the library"))
}
