//! A layout as a person reads it: each item's address, words, line and source;
//! the data; the labels with their addresses; the equates with value and round.
//! Or why there is none, with the line it is about.
//!
//!     listing FILE [BASE]
//!
//! BASE is decimal, or hexadecimal with 0x. Exit status: 0 accepted, 1 refused,
//! 2 not run. Lines are printed counted from 1.

mod kodhlace;

use kodhlace::{meaning, Buffers, Counts, Refusal, ORDINARY, TEXT_LIMIT};
use std::io::{Read, Write};
use std::process::ExitCode;
use std::{env, fs, io};

const WORDS_A_ROW: usize = 2;
const BYTES_A_ROW: usize = 16;

fn main() -> ExitCode {
    let arguments: Vec<String> = env::args().skip(1).collect();
    match run(&arguments) {
        Ok(accepted) => ExitCode::from(if accepted { 0 } else { 1 }),
        Err(message) => {
            eprintln!("listing: {message}");
            ExitCode::from(2)
        }
    }
}

/// Says whether the source is accepted.
fn run(arguments: &[String]) -> Result<bool, String> {
    let (file, base) = match arguments {
        [file] => (file, 0),
        [file, base] => (file, number(base)?),
        _ => return Err("usage: listing FILE [BASE]".to_string()),
    };
    let text = read(file).map_err(|error| format!("{file}: {error}"))?;
    let mut buffers = Buffers::full();
    let answer = buffers.assemble(&text, base);
    let report = match answer {
        Ok(counts) => listing(&text, base, &buffers, &counts),
        Err(refusal) => complaint(file, &text, refusal),
    };
    io::stdout()
        .write_all(report.as_bytes())
        .map_err(|error| error.to_string())?;
    Ok(answer.is_ok())
}

fn number(s: &str) -> Result<u32, String> {
    match s.strip_prefix("0x") {
        Some(digits) => u32::from_str_radix(digits, 16),
        None => s.parse(),
    }
    .map_err(|error| format!("{s}: {error}"))
}

/// One byte more than is accepted, so that a longer file is refused with 41.
fn read(file: &str) -> io::Result<Vec<u8>> {
    let mut text = Vec::new();
    let limit = TEXT_LIMIT as u64 + 1;
    fs::File::open(file)?.take(limit).read_to_end(&mut text)?;
    Ok(text)
}

/// One character a byte: printable ASCII as it is, white space as a blank, and
/// this for any other.
fn shown(bytes: &[u8], other: char) -> String {
    let one = |&b: &u8| match b {
        b' '..=b'~' => b as char,
        9..=13 => ' ',
        _ => other,
    };
    bytes.iter().map(one).collect()
}

fn listing(text: &[u8], base: u32, buffers: &Buffers, counts: &Counts) -> String {
    let bss_base = counts.data_base as usize + counts.data_bytes;
    let mut out = items(text, base, buffers, counts);
    out += &data(buffers, counts);
    out += &format!("\nbss: {} bytes at {bss_base:08X}\n", counts.bss_size);
    out += &labels(text, buffers, counts);
    out += &equates(text, buffers, counts);
    out
}

fn items(text: &[u8], base: u32, buffers: &Buffers, counts: &Counts) -> String {
    let items = buffers.items(counts);
    let mut out = format!("text: {} words at {base:08X}\n", counts.words);
    for (k, item) in items.iter().enumerate() {
        // an item's words end where the next one's begin
        let end = items.get(k + 1).map_or(counts.words, |i| i.first_word);
        let hexadecimal = |w: &u32| format!("{w:08X}");
        let words: Vec<String> = buffers.words[item.first_word..end]
            .iter()
            .map(hexadecimal)
            .collect();
        let mut rows = words.chunks(WORDS_A_ROW).map(|row| row.join(" "));
        let first = rows.next().unwrap_or_default();
        let (address, line) = (item.address, item.line + 1);
        let source = shown(item.source.of(text), '?');
        out += &format!("{address:08X}  {first:17}  {line:5}  {source}\n");
        for row in rows {
            out += &format!("{:8}  {row}\n", "");
        }
    }
    if items.iter().any(|i| i.kind == ORDINARY) {
        out += "An ordinary instruction's word is 0: only pseudo-instructions are encoded.\n";
    }
    out
}

fn data(buffers: &Buffers, counts: &Counts) -> String {
    let bytes = &buffers.data_bytes[..counts.data_bytes];
    let mut address = counts.data_base;
    let mut out = format!("\ndata: {} bytes at {address:08X}\n", bytes.len());
    for row in bytes.chunks(BYTES_A_ROW) {
        let numbers: Vec<String> = row.iter().map(|b| format!("{b:02X}")).collect();
        let characters = shown(row, '.');
        out += &format!("{address:08X}  {:47}  {characters}\n", numbers.join(" "));
        address += row.len() as u32;
    }
    out
}

fn labels(text: &[u8], buffers: &Buffers, counts: &Counts) -> String {
    let mut out = format!("\nlabels: {}\n", counts.labels);
    for label in buffers.labels(counts) {
        let name = shown(label.name.of(text), '?');
        out += &format!("{:08X}  {:5}  {name}\n", label.address, label.line + 1);
    }
    out
}

fn equates(text: &[u8], buffers: &Buffers, counts: &Counts) -> String {
    let (count, evaluations) = (counts.equates, counts.evaluations);
    let mut out = format!("\nequates: {count}, in {evaluations} evaluations\n");
    for equate in buffers.equates(counts) {
        let name = shown(equate.name.of(text), '?');
        let (line, value, round) = (equate.line + 1, equate.value, equate.round);
        out += &format!("round {round:3}  {line:5}  {name} = {value}\n");
    }
    out
}

/// The refusal in words, the line, and a mark under what it is about. A refusal
/// of the base or of the text's length is not about a line.
fn complaint(file: &str, text: &[u8], refusal: Refusal) -> String {
    let Refusal { number, line } = refusal;
    let why = meaning(number);
    if number == 40 || number == 41 {
        return format!("{file}: refused with {number}: {why}\n");
    }
    let content = text.split(|&b| b == b'\n').nth(line).unwrap_or_default();
    let (from, to) = if number == 1 {
        high_byte(content)
    } else {
        statement(content)
    };
    let mark = "^".repeat((to - from).max(1));
    let (line, content) = (line + 1, shown(content, '?'));
    format!(
        "{file}:{line}: refused with {number}: {why}\n{content}\n{:from$}{mark}\n",
        ""
    )
}

/// Where the first byte above 127 begins and ends.
fn high_byte(line: &[u8]) -> (usize, usize) {
    let at = line.iter().position(|&b| b > 127).unwrap_or_default();
    (at, at + 1)
}

/// Where the line without its comment and the white space around it begins and
/// ends.
fn statement(line: &[u8]) -> (usize, usize) {
    let comment = |&b: &u8| b == b';' || b == b'#';
    let is_written = |&b: &u8| !matches!(b, 9..=13 | b' ');
    let code = &line[..line.iter().position(comment).unwrap_or(line.len())];
    let from = code.iter().position(is_written).unwrap_or_default();
    let to = code.iter().rposition(is_written).map_or(from, |k| k + 1);
    (from, to)
}
