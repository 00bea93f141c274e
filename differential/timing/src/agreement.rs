//! That both contenders accept a source and answer the same of it: else they
//! did not do the same work, and their times say nothing. For an li by name ours
//! may have a word more (W-202). Of a source for ours alone, that it is accepted.

use differential::items::{compared_words, items, Item};

use crate::ours::{Answer, Buffers};
use crate::reference::{assemble, Program};

/// Nothing, or the first thing in which they differ.
pub fn agree(text: &str) -> Result<(), String> {
    let mut buffers = Buffers::new();
    let ours = taken(text, &mut buffers)?;
    let theirs = assemble(text).map_err(|error| format!("the reference refuses it: {error}"))?;
    let their_items = items(text, &theirs).ok_or("the reference's words are not its items'")?;
    let parts = [
        ("words", same_words(&ours, &buffers, &their_items)),
        (
            "data",
            zeros_after(&theirs.data, &buffers.data_bytes) && ours.data_bytes == theirs.data.len(),
        ),
        ("data base", ours.data_base == u64::from(theirs.data_base)),
        ("bss size", ours.bss_size == u64::from(theirs.bss_size)),
        (
            "labels",
            our_labels(&ours, &buffers, text) == their_labels(&theirs),
        ),
        ("items", same_items(&ours, &buffers, &their_items)),
    ];
    match parts.iter().find(|part| !part.1) {
        Some((what, _)) => Err(format!("not the same {what}")),
        None => Ok(()),
    }
}

/// Nothing, or what ours refuses it by.
pub fn accepted(text: &str) -> Result<(), String> {
    taken(text, &mut Buffers::new()).map(|_| ())
}

fn taken(text: &str, buffers: &mut Buffers) -> Result<Answer, String> {
    match buffers.assemble(text) {
        ours if ours.number == 0 => Ok(ours),
        ours => Err(format!("ours refuses it: {ours:?}")),
    }
}

/// Is this what the buffer begins with, and only zeros after it?
fn zeros_after<T: PartialEq + Default>(expected: &[T], buffer: &[T]) -> bool {
    buffer.len() >= expected.len() && {
        let (used, rest) = buffer.split_at(expected.len());
        used == expected && rest.iter().all(|value| *value == T::default())
    }
}

// ---- words and items

/// Ours has a 0 for the word of an ordinary instruction line.
fn same_words(ours: &Answer, buffers: &Buffers, theirs: &[Item]) -> bool {
    let words = compared_words(theirs).into_iter();
    let expected: Vec<u32> = words.map(Option::unwrap_or_default).collect();
    ours.words == expected.len() && zeros_after(&expected, &buffers.words)
}

/// Line and address of each item, and its first word's index: at base 0 the
/// address is four times that. No line has two items.
fn same_items(ours: &Answer, buffers: &Buffers, theirs: &[Item]) -> bool {
    let ours: Vec<_> = buffers.items(ours).collect();
    ours.len() == theirs.len()
        && ours.iter().zip(theirs).all(|(ours, theirs)| {
            ours.line as usize == theirs.line
                && ours.address == theirs.address
                && ours.address as usize == 4 * ours.first_word
        })
}

// ---- labels

/// Address, name and line of each label, in their order.
fn our_labels<'a>(ours: &Answer, buffers: &Buffers, text: &'a str) -> Vec<(u32, &'a str, u32)> {
    buffers
        .labels(ours)
        .map(|label| {
            let name = &text[label.start..label.start + label.len];
            (label.address, name, label.line)
        })
        .collect()
}

fn their_labels(theirs: &Program) -> Vec<(u32, &str, u32)> {
    let mut labels = Vec::new();
    for (&address, names) in &theirs.labels {
        for name in names {
            labels.push((address, name.as_str(), theirs.label_to_line[name] as u32));
        }
    }
    labels.sort_unstable();
    labels
}
