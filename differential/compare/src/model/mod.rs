//! A second model of the whole call, written from document 01, with document
//! 02's change requests W-201 (strings) and W-202 (li by name).
//!
//! It shares no line with the reference and none with the proved code. Where
//! the paper leaves a point open, docs/DECISIONS.md says how it was decided.
//! It is meant to be read beside the paper: plain, one rule after the other.

mod equates;
mod lines;
pub mod marks;
mod pseudos;
mod text;

use std::collections::HashMap;

use lines::{Lines, Place, Section};
use marks::mark;

/// What a caller lends: words in words, the other four in bytes.
#[derive(Clone, Copy, Debug, PartialEq, Eq)]
pub struct Lent {
    pub words: usize,
    pub data: usize,
    pub labels: usize,
    pub equates: usize,
    pub items: usize,
}

impl Lent {
    /// Every limit's full size.
    pub const FULL: Lent = Lent {
        words: 16_384,
        data: 65_536,
        labels: 1_024 * LABEL_SIZE,
        equates: 256 * EQUATE_SIZE,
        items: 2_048 * ITEM_SIZE,
    };
}

pub const LABEL_SIZE: usize = 16;
pub const EQUATE_SIZE: usize = 24;
pub const ITEM_SIZE: usize = 24;

/// A refusal by number and 0-based line.
#[derive(Clone, Copy, Debug, PartialEq, Eq)]
pub struct Refusal {
    pub number: u8,
    pub line: usize,
}

impl Refusal {
    fn new(number: u8, line: usize) -> Self {
        Refusal { number, line }
    }
}

/// The counts in the order of the exported call, without the line.
#[derive(Clone, Copy, Debug, Default, PartialEq, Eq)]
pub struct Counts {
    pub words: u64,
    pub data_bytes: u64,
    pub data_base: u64,
    pub bss_size: u64,
    pub labels: u64,
    pub equates: u64,
    pub items: u64,
    pub evaluations: u64,
}

/// The whole answer. The buffers hold their used parts: zeros follow in what
/// was lent. After a refusal all of them are empty and every count is 0.
#[derive(Clone, Debug, Default, PartialEq, Eq)]
pub struct Answer {
    pub number: u8,
    pub line: u32,
    pub counts: Counts,
    pub words: Vec<u32>,
    pub data: Vec<u8>,
    pub labels: Vec<u8>,
    pub equates: Vec<u8>,
    pub items: Vec<u8>,
}

impl Answer {
    /// The first item that is not where W-202 says: at the base plus four times
    /// its first word's index.
    pub fn misplaced(&self, base: u32) -> Option<usize> {
        let is_misplaced = |item: &[u8]| {
            let (address, first) = (u64::from(field(item, 0)), u64::from(field(item, 3)));
            address != u64::from(base) + 4 * first
        };
        self.items.chunks(ITEM_SIZE).position(is_misplaced)
    }
}

/// What the answer does not say, but who holds it to the reference asks.
#[derive(Clone, Debug, Default)]
pub struct Trace {
    /// Where the ordinary items' statements start, and their lengths.
    pub ordinary: Vec<(usize, usize)>,
    /// Whether a pair was formed for an address that checked Rust cannot form.
    pub edge: bool,
}

/// The call.
pub fn assemble(text: &[u8], base: u32, lent: Lent) -> (Answer, Trace) {
    let mut trace = Trace::default();
    let answer = match layout(text, base, lent, &mut trace) {
        Ok(answer) => answer,
        Err(refusal) => Answer {
            number: refusal.number,
            line: refusal.line as u32,
            ..Answer::default()
        },
    };
    (answer, trace)
}

fn layout(text: &[u8], base: u32, lent: Lent, trace: &mut Trace) -> Result<Answer, Refusal> {
    if base > 0xFF00_0000 {
        mark!(BaseAbove);
        return Err(Refusal::new(40, 0));
    }
    if text.len() > 65_536 {
        mark!(TextAbove);
        return Err(Refusal::new(41, 0));
    }
    if let Some(place) = text.iter().position(|byte| *byte > 127) {
        mark!(ByteAbove);
        let line = text[..place].iter().filter(|byte| **byte == b'\n').count();
        return Err(Refusal::new(1, line));
    }
    let Lines {
        labels,
        mut equates,
        items,
        mut data,
        label_words,
        bss,
    } = lines::read(text, lent)?;
    for item in &items {
        if item.kind == 0 {
            trace
                .ordinary
                .push((item.source.at, item.source.bytes.len()));
        }
    }

    let data_base = u64::from(base) + 0x1000;
    let bss_base = data_base + data.len() as u64;
    let address = |place: Place| {
        (match place.section {
            Section::Text => u64::from(base) + place.offset,
            Section::Data => data_base + place.offset,
            Section::Bss => bss_base + place.offset,
        }) as u32
    };
    let addresses: HashMap<&[u8], u32> = labels
        .iter()
        .map(|(name, label)| (*name, address(label.place)))
        .collect();

    for word in &label_words {
        let Some(target) = addresses.get(word.name) else {
            mark!(LabelWordUndefined);
            return Err(Refusal::new(13, word.line));
        };
        mark!(LabelWordFilled);
        data[word.at..word.at + 4].copy_from_slice(&target.to_le_bytes());
    }

    let (values, evaluations) = equates::resolve(&mut equates, &addresses, &address)?;
    let (words, firsts) = pseudos::emit(&items, &addresses, &values, &mut trace.edge)?;

    let mut ordered: Vec<_> = labels
        .iter()
        .map(|(name, label)| (addresses[name], *name, label))
        .collect();
    ordered.sort_by_key(|(address, name, _)| (*address, *name));
    let mut label_records = Vec::with_capacity(ordered.len() * LABEL_SIZE);
    for (address, name, label) in &ordered {
        put(
            &mut label_records,
            &[label.at, name.len(), *address as usize, label.line],
        );
    }
    let mut equate_records = Vec::with_capacity(equates.len() * EQUATE_SIZE);
    for equate in &equates {
        put(
            &mut equate_records,
            &[equate.name.at, equate.name.bytes.len(), equate.line],
        );
        equate_records.extend_from_slice(&equate.value.to_le_bytes());
        put(&mut equate_records, &[equate.round]);
    }
    let mut item_records = Vec::with_capacity(items.len() * ITEM_SIZE);
    for (item, first) in items.iter().zip(&firsts) {
        let address = u64::from(base) + item.offset;
        let source = item.source;
        let fields = [
            address as usize,
            item.line,
            item.kind,
            *first,
            source.at,
            source.bytes.len(),
        ];
        put(&mut item_records, &fields);
    }
    mark!(Accepted);
    Ok(Answer {
        number: 0,
        line: 0,
        counts: Counts {
            words: words.len() as u64,
            data_bytes: data.len() as u64,
            data_base,
            bss_size: bss,
            labels: ordered.len() as u64,
            equates: equates.len() as u64,
            items: items.len() as u64,
            evaluations,
        },
        words,
        data,
        labels: label_records,
        equates: equate_records,
        items: item_records,
    })
}

/// Fields of four bytes, little-endian.
fn put(record: &mut Vec<u8>, fields: &[usize]) {
    for field in fields {
        let field = u32::try_from(*field).expect("a field of four bytes");
        record.extend_from_slice(&field.to_le_bytes());
    }
}

/// A record's field of four bytes.
pub fn field(record: &[u8], number: usize) -> u32 {
    let bytes = &record[4 * number..4 * number + 4];
    u32::from_le_bytes(bytes.try_into().expect("four bytes"))
}
