//! W-201's strings against GNU as: lines of `.ascii` that both take, and the
//! bytes that each makes of them.

use std::collections::HashSet;
use std::io;
use std::ops::RangeInclusive;

use differential::gnu;
use differential::random::Random;

use crate::generate::settings::AMPLE;
use crate::generate::Case;
use crate::run::{Comparison, Outcome};

/// So many different lines, none with anything on which GNU as is known to
/// differ: a blank stands before the quote, blanks are spaces, tabs and CR, no
/// NUL is in a string, octals go up to 377, and a comment begins with `#`.
pub fn lines(seed: u64, count: usize) -> Vec<String> {
    let mut random = Random::new(seed.max(1));
    let mut known = HashSet::new();
    let mut lines = Vec::with_capacity(count);
    while lines.len() < count {
        let line = line(&mut random);
        if known.insert(line.clone()) {
            lines.push(line);
        }
    }
    lines
}

fn line(random: &mut Random) -> String {
    let mut line = random.pick(&["", " ", "\t", "    "]).to_string();
    line.push_str(".ascii");
    line.push_str(random.pick(&[" ", "\t", "  ", " \t ", "\r"]));
    line.push('"');
    let mut is_open = false;
    for _ in 0..random.below(12) {
        let (piece, opens) = piece(random);
        // A digit would go on an octal of one or two digits.
        if is_open && piece.starts_with(|c: char| c.is_ascii_digit()) {
            continue;
        }
        line.push_str(&piece);
        is_open = opens;
    }
    line.push('"');
    line.push_str(random.pick(&["", "", " ", "\t", " \t", "\r"]));
    line.push_str(random.pick(&["", "", "", "#", "# note", "#\"", "# \\", "#;:"]));
    line
}

/// A part of a string, and whether it is an octal that a digit would go on.
fn piece(random: &mut Random) -> (String, bool) {
    let piece = match random.below(8) {
        0..=1 => plain(32..=126, random),
        2 => plain(1..=127, random),
        3 => random
            .pick(&[":", ";", "#", "'", ",", "/*", "//", "8"])
            .into(),
        4..=5 => format!("\\{}", random.pick(&["b", "f", "n", "r", "t", "\\", "\""])),
        _ => return octal(random),
    };
    (piece, false)
}

/// A byte that stands for itself.
fn plain(bytes: RangeInclusive<u8>, random: &mut Random) -> String {
    let bytes: Vec<u8> = bytes.filter(|byte| !b"\n\"\\".contains(byte)).collect();
    char::from(bytes[random.below(bytes.len())]).into()
}

/// One to three digits, 8 and 9 among them, up to 377.
fn octal(random: &mut Random) -> (String, bool) {
    loop {
        let digits: Vec<u32> = (0..1 + random.below(3))
            .map(|_| random.below(10) as u32)
            .collect();
        let value = digits.iter().fold(0, |value, digit| 8 * value + digit);
        if value <= 0o377 {
            let written: String = digits.iter().map(u32::to_string).collect();
            return (format!("\\{written}"), digits.len() < 3);
        }
    }
}

/// The lines of which GNU as makes other bytes than the model, or the model
/// others than the call and the reference.
pub fn differing(lines: &[String]) -> io::Result<Vec<String>> {
    let theirs = gnu::data(lines)?;
    let mut comparison = Comparison::new();
    let mut differing = Vec::new();
    for (line, theirs) in lines.iter().zip(&theirs) {
        let case = Case {
            text: format!(".data\n{line}").into_bytes(),
            base: 0,
            lent: AMPLE,
            counts: 9,
        };
        let Outcome { model, finding, .. } = comparison.compare(&case, false);
        if model.number != 0 || model.data != *theirs {
            let ours = (model.number, model.data);
            differing.push(format!("{line:?}: the model {ours:?}, GNU as {theirs:?}"));
        } else if let Some(finding) = finding {
            differing.push(format!("{line:?}: {finding}"));
        }
    }
    Ok(differing)
}
