//! An answer for a program to read, in the lines of docs/call.c.

use crate::model::{field, Answer, EQUATE_SIZE, ITEM_SIZE, LABEL_SIZE};

/// The line that the bench program writes; and of an accepted text everything
/// that its records say, a line each.
pub fn answer(answer: &Answer) -> String {
    if answer.number != 0 {
        return format!("no {} {}\n", answer.number, answer.line + 1);
    }
    let counts = answer.counts;
    let mut shown = format!(
        "ok {} {} {} {}\nwords",
        counts.words, counts.data_bytes, counts.bss_size, counts.evaluations
    );
    for word in &answer.words {
        shown.push_str(&format!(" {word:08X}"));
    }
    shown.push_str("\ndata");
    for byte in &answer.data {
        shown.push_str(&format!(" {byte:02X}"));
    }
    shown.push('\n');
    for label in answer.labels.chunks(LABEL_SIZE) {
        let (start, length, address) = (field(label, 0), field(label, 1), field(label, 2));
        shown.push_str(&format!("label {start} {length} {address}\n"));
    }
    for equate in answer.equates.chunks(EQUATE_SIZE) {
        let (start, length, round) = (field(equate, 0), field(equate, 1), field(equate, 5));
        let value = i64::from_le_bytes(equate[12..20].try_into().expect("eight bytes"));
        shown.push_str(&format!("equate {start} {length} {value} {round}\n"));
    }
    for item in answer.items.chunks(ITEM_SIZE) {
        shown.push_str(&format!("item {}\n", field(item, 0)));
    }
    shown
}
