//! The reference's answer, held to the model's on document 01's domain.

use std::borrow::Cow;

use differential::asking::{ask, Asked};
use differential::falcon::asm::program::Program;
use differential::items::{compared_words, items, Item};
use differential::refusals::{number_of, LAST_OF_LINES};

use crate::model::{field, Answer, Trace, EQUATE_SIZE, ITEM_SIZE, LABEL_SIZE};
use crate::strings::with_bytes;

/// What came of the comparison.
pub enum Held {
    /// On the domain, and the same.
    Same,
    /// Outside the domain, and why.
    Out(&'static str),
    /// A finding.
    Differs(String),
}

/// What is compared of an accepted source, in either's terms. The words of
/// ordinary items are none.
#[derive(PartialEq, Debug)]
struct Laid {
    words: Vec<Option<u32>>,
    data: Vec<u8>,
    data_base: u32,
    bss_size: u32,
    /// Address, name and line, ordered by address and then by name.
    labels: Vec<(u32, Vec<u8>, usize)>,
    /// Line, address and statement, in text order.
    items: Vec<(usize, u32, Vec<u8>)>,
}

/// Holds the model's answer to the reference's. With `probe` the equates'
/// values are asked for too.
pub fn hold(text: &[u8], base: u32, model: &Answer, trace: &Trace, probe: bool) -> Held {
    match model.number {
        1 => return Held::Out("added 1"),
        40 => return Held::Out("added 40"),
        41 => return Held::Out("added 41"),
        _ => {}
    }
    let Ok(text) = std::str::from_utf8(text) else {
        return Held::Differs("a byte above 127 without refusal 1".into());
    };
    let asked = with_bytes(text);
    match model.number {
        21 => above(&asked, base, model, "added 21"),
        24 => match ask(&asked, base) {
            Asked::Panicked("assembler.rs") => {
                Held::Out("added 24: checked Rust panics in the sum")
            }
            other => differs("the reference does not panic", &other, &asked),
        },
        42 => above(&asked, base, model, "added 42"),
        43 => above(&asked, base, model, "added 43"),
        44 => above(&asked, base, model, "added 44"),
        45 => above(&asked, base, model, "added 45"),
        46 => above(&asked, base, model, "added 46"),
        47 => above(&asked, base, model, "added 47"),
        48 => above(&asked, base, model, "added 48"),
        _ => domain(text, asked, base, model, trace, probe),
    }
}

/// An added refusal of a line: the reference takes the lines above it.
fn above(text: &str, base: u32, model: &Answer, reason: &'static str) -> Held {
    let lines = text.split_inclusive('\n').take(model.line as usize);
    let above = lines.map(str::len).sum();
    match ask(&text[..above], base) {
        Asked::Refused(error) => match number_of(text, &error) {
            Some(number) if number <= LAST_OF_LINES => Held::Differs(format!(
                "the reference refuses above it: {number} at {}",
                error.line
            )),
            _ => Held::Out(reason),
        },
        _ => Held::Out(reason),
    }
}

/// What the reference was asked in a text's place, and what it answered.
struct Put<'a> {
    asked: Cow<'a, str>,
    answer: Asked,
    /// Why `nop` stands in place of the ordinary lines; none if it does not.
    nops: Option<&'static str>,
}

/// The model's answer is no added refusal. In `asked` the text's strings may be
/// given by their bytes.
fn domain(
    text: &str,
    asked: Cow<'_, str>,
    base: u32,
    model: &Answer,
    trace: &Trace,
    probe: bool,
) -> Held {
    let strings = matches!(asked, Cow::Owned(_)).then_some(
        "a string that is no longer the Rust's (W-201); compared with its bytes in its place",
    );
    let put = match put(text, asked, base, model, trace) {
        Ok(put) => put,
        Err(held) => return held,
    };
    let is_same = match &put.answer {
        Asked::Refused(error) => {
            let number = number_of(&put.asked, error);
            number == Some(u32::from(model.number)) && error.line == model.line as usize
        }
        Asked::Laid(_) if model.number != 0 => {
            return Held::Differs("the reference accepts".into());
        }
        Asked::Laid(program) => match laid_otherwise(text, base, &put, program, model, probe) {
            Some(difference) => return Held::Differs(difference),
            None => true,
        },
        Asked::Panicked(_) => false,
    };
    let lis = lis_by_name(&put.answer, model);
    match (is_same, put.nops.or(strings).or(lis)) {
        (false, _) => differs("other than the model's", &put.answer, &put.asked),
        (true, Some(reason)) => Held::Out(reason),
        (true, None) => Held::Same,
    }
}

/// Why an answer that is the same otherwise has more words than the Rust's.
fn lis_by_name(answer: &Asked, model: &Answer) -> Option<&'static str> {
    match answer {
        Asked::Laid(program) if program.text.len() < model.words.len() => Some(
            "an li by name that is one word in the Rust (W-202); compared with the two in its place",
        ),
        _ => None,
    }
}

/// Asks; and once more with `nop` in place of the ordinary lines, if that is what
/// the reference stops at.
fn put<'a>(
    text: &str,
    asked: Cow<'a, str>,
    base: u32,
    model: &Answer,
    trace: &Trace,
) -> Result<Put<'a>, Held> {
    let reason = match ask(&asked, base) {
        Asked::Refused(error) if number_of(&asked, &error).is_none() => {
            // Ordinary lines are read after the rounds, in order with pseudos.
            let is_above = match u32::from(model.number) {
                0 => true,
                18..=20 => error.line < model.line as usize,
                _ => false,
            };
            if !is_above {
                let differs = format!("the reference: {} at {}", error.msg, error.line);
                return Err(Held::Differs(differs));
            }
            "an ordinary line that parse_instr or encode refuses; compared with nop in its place"
        }
        Asked::Panicked("pseudo.rs") if trace.edge => {
            return Err(Held::Out("a la address that checked Rust cannot form"));
        }
        Asked::Panicked(_) if !trace.ordinary.is_empty() => {
            "an ordinary line at which the reference panics; compared with nop in its place"
        }
        answer => {
            return Ok(Put {
                asked,
                answer,
                nops: None,
            })
        }
    };
    let asked = with_bytes(&with_nops(text, trace)).into_owned();
    match ask(&asked, base) {
        // Both reasons: the la is behind the ordinary line.
        Asked::Panicked("pseudo.rs") if trace.edge => Err(Held::Out(reason)),
        answer => Ok(Put {
            asked: Cow::Owned(asked),
            answer,
            nops: Some(reason),
        }),
    }
}

fn differs(what: &str, asked: &Asked, text: &str) -> Held {
    Held::Differs(match asked {
        Asked::Laid(_) => format!("the reference accepts: {what}"),
        Asked::Refused(error) => {
            let number = number_of(text, error);
            format!(
                "the reference: {number:?} at {}, {}: {what}",
                error.line, error.msg
            )
        }
        Asked::Panicked(file) => format!("the reference panics in {file}: {what}"),
    })
}

/// The reference's own answer, for a reader.
pub fn show(text: &[u8], base: u32) -> String {
    let Ok(text) = std::str::from_utf8(text) else {
        return "cannot be asked: the text is no UTF-8".into();
    };
    match ask(text, base) {
        Asked::Laid(program) => {
            let Some(items) = items(text, &program) else {
                return NO_ITEMS.into();
            };
            let words = items.iter().flat_map(|item| {
                let shown = |word: &u32| match item.is_ordinary {
                    true => "- ".into(),
                    false => format!("{word:08X} "),
                };
                item.words.iter().map(shown)
            });
            let laid = reference_laid(&items, &program);
            let bytes = laid.data.iter().map(|byte| format!("{byte:02X}"));
            let name = |bytes: &[u8]| String::from_utf8_lossy(bytes).into_owned();
            let labels = laid.labels.iter();
            let labels = labels.map(|(at, text, line)| format!("{:?}@{at}@{line} ", name(text)));
            let items = laid.items.iter();
            let items = items.map(|(line, at, text)| format!("{:?}@{at}@{line} ", name(text)));
            format!(
                "accepted, data base {}, bss size {}\n  words: {}\n  data: {}\n  labels: {}\n  items: {}",
                laid.data_base,
                laid.bss_size,
                words.collect::<String>(),
                bytes.collect::<String>(),
                labels.collect::<String>(),
                items.collect::<String>()
            )
        }
        Asked::Refused(error) => {
            let number = match number_of(text, &error) {
                Some(number) => number.to_string(),
                None => "no number of document 01".into(),
            };
            format!("{number} at {}: {}", error.line, error.msg)
        }
        Asked::Panicked(file) => format!("panics in {file}"),
    }
}

/// The text with `nop` in place of each ordinary statement: an item and one
/// word in either. A place in it is no longer a place in the text.
fn with_nops(text: &str, trace: &Trace) -> String {
    let mut nops = String::with_capacity(text.len());
    let mut from = 0;
    for (at, length) in &trace.ordinary {
        nops.push_str(&text[from..*at]);
        nops.push_str("nop");
        from = at + length;
    }
    nops.push_str(&text[from..]);
    nops
}

// ---------- an accepted source ----------

/// Said where the reference's words cannot be parted into items.
const NO_ITEMS: &str = "the reference accepts, and its words are not those of its items";

/// In what an accepted source differs. The model's spans are of the text itself.
fn laid_otherwise(
    text: &str,
    base: u32,
    put: &Put,
    program: &Program,
    model: &Answer,
    probe: bool,
) -> Option<String> {
    let Some(items) = items(&put.asked, program) else {
        return Some(NO_ITEMS.into());
    };
    let theirs = reference_laid(&items, program);
    if put.nops.is_some() {
        return difference_but_spans(&theirs, model);
    }
    let ours = model_laid(text.as_bytes(), model);
    match theirs == ours {
        true if probe => probed(text, &put.asked, base, program, model),
        true => None,
        false => Some(format!(
            "the reference: {theirs:?}\n  the model:     {ours:?}"
        )),
    }
}

/// The same without names and statements, for a text with nops.
fn difference_but_spans(theirs: &Laid, model: &Answer) -> Option<String> {
    let labels = model.labels.chunks(LABEL_SIZE);
    let labels = labels.map(|record| (field(record, 2), field(record, 3) as usize));
    let items = model.items.chunks(ITEM_SIZE);
    let items = items.map(|record| (field(record, 1) as usize, field(record, 0)));
    let is_same = theirs.words.len() == model.words.len()
        && theirs
            .words
            .iter()
            .zip(&model.words)
            .all(|(theirs, ours)| match theirs {
                Some(word) => word == ours,
                None => *ours == 0,
            })
        && theirs.data == model.data
        && u64::from(theirs.data_base) == model.counts.data_base
        && u64::from(theirs.bss_size) == model.counts.bss_size
        && theirs
            .labels
            .iter()
            .map(|(address, _, line)| (*address, *line))
            .eq(labels)
        && theirs
            .items
            .iter()
            .map(|(line, address, _)| (*line, *address))
            .eq(items);
    match is_same {
        true => None,
        false => Some(format!("with nops, the reference: {theirs:?}")),
    }
}

/// The reference's layout, with the two words that an li by name has since W-202.
fn reference_laid(items: &[Item], program: &Program) -> Laid {
    let words = compared_words(items);
    let statement = |item: &Item| item.statement.as_bytes().to_vec();
    let items = items.iter();
    let items = items.map(|item| (item.line, item.address, statement(item)));
    let mut labels: Vec<_> = program
        .labels
        .iter()
        .flat_map(|(address, names)| names.iter().map(|name| (*address, name)))
        .map(|(address, name)| {
            (
                address,
                name.as_bytes().to_vec(),
                program.label_to_line[name],
            )
        })
        .collect();
    labels.sort();
    Laid {
        words,
        data: program.data.clone(),
        data_base: program.data_base,
        bss_size: program.bss_size,
        labels,
        items: items.collect(),
    }
}

fn span(text: &[u8], record: &[u8], number: usize) -> Vec<u8> {
    let start = field(record, number) as usize;
    let length = field(record, number + 1) as usize;
    text[start..start + length].to_vec()
}

fn model_laid(text: &[u8], model: &Answer) -> Laid {
    let mut words: Vec<_> = model.words.iter().map(|word| Some(*word)).collect();
    for record in model.items.chunks(ITEM_SIZE) {
        if field(record, 2) == 0 {
            let word = &mut words[field(record, 3) as usize];
            if *word == Some(0) {
                *word = None;
            }
        }
    }
    let labels = model.labels.chunks(LABEL_SIZE);
    let items = model.items.chunks(ITEM_SIZE);
    Laid {
        words,
        data: model.data.clone(),
        data_base: model.counts.data_base as u32,
        bss_size: model.counts.bss_size as u32,
        labels: labels
            .map(|record| {
                (
                    field(record, 2),
                    span(text, record, 0),
                    field(record, 3) as usize,
                )
            })
            .collect(),
        items: items
            .map(|record| {
                (
                    field(record, 1) as usize,
                    field(record, 0),
                    span(text, record, 4),
                )
            })
            .collect(),
    }
}

// ---------- the equates' values ----------

/// The word of `li a0, 0`, and the Rust's for an li of an equate that is 0.
const LI_A0_0: u32 = 0x0000_0513;

/// Asks the reference for each equate's value: behind what it was asked, the
/// equate less its value must be 0, which a li shows. Names that no expression
/// can hold are not asked for.
fn probed(text: &str, asked: &str, base: u32, program: &Program, model: &Answer) -> Option<String> {
    if model.equates.is_empty() || text.contains("probe") {
        return None;
    }
    let mut with = format!("{asked}\n.text\n");
    let mut count = 0;
    for record in model.equates.chunks(EQUATE_SIZE) {
        let value = i64::from_le_bytes(record[12..20].try_into().expect("eight bytes"));
        let Some(name) = equate_name(text, record) else {
            continue;
        };
        let less = match value.checked_neg() {
            None => format!("+ {} + 1", i64::MAX),
            Some(opposite) if opposite > 0 => format!("+ {opposite}"),
            Some(_) => format!("- {value}"),
        };
        with.push_str(&format!(
            "probe{count} = {name} {less}\nli a0, probe{count}\n"
        ));
        count += 1;
    }
    let probes = match ask(&with, base) {
        Asked::Laid(probed) => probed.text,
        _ => return Some("an equate's value: the reference does not accept the probe".into()),
    };
    let is_zero = probes.len() == program.text.len() + count
        && probes[program.text.len()..]
            .iter()
            .all(|word| *word == LI_A0_0);
    match is_zero {
        true => None,
        false => Some("an equate's value differs".into()),
    }
}

/// An equate's name, if an expression can hold it.
fn equate_name<'a>(text: &'a str, record: &[u8]) -> Option<&'a str> {
    let start = field(record, 0) as usize;
    let name = text.get(start..start + field(record, 1) as usize)?;
    let is_term = name
        .bytes()
        .all(|b| b.is_ascii_alphanumeric() || b"_.$".contains(&b))
        && !name.starts_with(|c: char| c.is_ascii_digit())
        && name != ".";
    is_term.then_some(name)
}

#[cfg(test)]
mod tests {
    use super::*;

    fn words(text: &str) -> Vec<Option<u32>> {
        let Asked::Laid(program) = ask(text, 0) else {
            panic!("not accepted: {text}");
        };
        compared_words(&items(text, &program).expect("items"))
    }

    #[test]
    fn lis_that_are_one_word_in_the_rust_alone() {
        for (text, pair) in [
            ("n = 5\nli a0, n", [0x00000537, 0x00550513]),
            ("n = 5\nli x0 ,\tn,", [0x00000037, 0x00500013]),
            ("n m = -1\nli t6, n\t m", [0x00000FB7, 0xFFFF8F93]),
            (
                "4294967296 = 7\nli a0, 4294967296",
                [0x00000537, 0x00750513],
            ),
        ] {
            let pair = pair.map(Some);
            assert_eq!(words(text), pair, "{text}");
            assert_eq!(
                words(&format!("{text}\nx: ecall")),
                [pair[0], pair[1], None]
            );
        }
    }

    #[test]
    fn lis_that_stay_as_they_are() {
        for (text, given) in [
            ("n = 2048\nli a0, n", &[0x00001537, 0x80050513][..]),
            ("5 = 9\nli a0, 5", &[0x00500513]),
            ("li a0, 'a'", &[0x06100513]),
            ("li a0, 2048", &[0x00001537, 0x80050513]),
            ("push ra", &[0xFFC10113, 0x00112023]),
        ] {
            let given: Vec<_> = given.iter().copied().map(Some).collect();
            assert_eq!(words(text), given, "{text}");
        }
    }
}
