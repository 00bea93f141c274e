//! Our code: the exported call of `crates/jig_c`, through its static library.
//!
//! Nothing compares this declaration with the library: it follows the crate's
//! `src/lib.rt`, where a slice is a pointer and then a length.

extern "C" {
    fn kodhlace_assemble(
        text: *const u8,
        text_len: usize,
        base: u32,
        words: *mut u32,
        words_len: usize,
        data_bytes: *mut u8,
        data_bytes_len: usize,
        labels: *mut u8,
        labels_len: usize,
        equates: *mut u8,
        equates_len: usize,
        items: *mut u8,
        items_len: usize,
        counts: *mut u64,
        counts_len: usize,
    ) -> u32;
}

/// The longest text that is not refused.
pub const TEXT_LIMIT: usize = 65536;

const LABEL_SIZE: usize = 16;
const EQUATE_SIZE: usize = 24;
const ITEM_SIZE: usize = 24;

/// What a call answers: number 0 is an accepted source.
#[derive(Debug)]
pub struct Answer {
    pub number: u32,
    pub line: u64,
    pub words: usize,
    pub data_bytes: usize,
    pub data_base: u64,
    pub bss_size: u64,
    pub labels: usize,
    pub items: usize,
}

/// A label's record, its name as a place in the text.
pub struct Label {
    pub start: usize,
    pub len: usize,
    pub address: u32,
    pub line: u32,
}

/// What is looked at of an item's record. Kind 0 is an ordinary instruction
/// line, whose one word is 0.
pub struct Item {
    pub address: u32,
    pub line: u32,
    pub kind: u32,
    pub first_word: usize,
}

/// The buffers that a call is lent, each of its limit's full size.
pub struct Buffers {
    pub words: Vec<u32>,
    pub data_bytes: Vec<u8>,
    pub labels: Vec<u8>,
    pub equates: Vec<u8>,
    pub items: Vec<u8>,
}

/// What the buffers hold before their first call, which clears them itself.
const UNCLEARED: u8 = 0xA5;

impl Buffers {
    pub fn new() -> Self {
        Buffers {
            words: vec![u32::from_le_bytes([UNCLEARED; 4]); 16384],
            data_bytes: vec![UNCLEARED; 65536],
            labels: vec![UNCLEARED; 1024 * LABEL_SIZE],
            equates: vec![UNCLEARED; 256 * EQUATE_SIZE],
            items: vec![UNCLEARED; 2048 * ITEM_SIZE],
        }
    }

    /// The buffers by name, with their bytes.
    pub fn sizes(&self) -> Vec<(&'static str, usize)> {
        vec![
            ("words, lent", size_of_val(&self.words[..])),
            ("data, lent", size_of_val(&self.data_bytes[..])),
            ("labels, lent", size_of_val(&self.labels[..])),
            ("equates, lent", size_of_val(&self.equates[..])),
            ("items, lent", size_of_val(&self.items[..])),
        ]
    }

    /// The call, at base 0.
    pub fn assemble(&mut self, text: &str) -> Answer {
        let mut counts = [0u64; 9];
        // SAFETY: each pointer and length is of one live buffer, and no two
        // overlap. The contract asks nothing else.
        let number = unsafe {
            kodhlace_assemble(
                text.as_ptr(),
                text.len(),
                0,
                self.words.as_mut_ptr(),
                self.words.len(),
                self.data_bytes.as_mut_ptr(),
                self.data_bytes.len(),
                self.labels.as_mut_ptr(),
                self.labels.len(),
                self.equates.as_mut_ptr(),
                self.equates.len(),
                self.items.as_mut_ptr(),
                self.items.len(),
                counts.as_mut_ptr(),
                counts.len(),
            )
        };
        let [line, words, data_bytes, data_base, bss_size, labels, _equates, items, _evaluations] =
            counts;
        Answer {
            number,
            line,
            words: words as usize,
            data_bytes: data_bytes as usize,
            data_base,
            bss_size,
            labels: labels as usize,
            items: items as usize,
        }
    }
}

// ---- records

impl Buffers {
    /// The labels of an answer, in their order.
    pub fn labels(&self, answer: &Answer) -> impl Iterator<Item = Label> + '_ {
        records(&self.labels, LABEL_SIZE, answer.labels).map(|record| Label {
            start: field(record, 0) as usize,
            len: field(record, 1) as usize,
            address: field(record, 2),
            line: field(record, 3),
        })
    }

    /// The items of an answer, in text order.
    pub fn items(&self, answer: &Answer) -> impl Iterator<Item = Item> + '_ {
        records(&self.items, ITEM_SIZE, answer.items).map(|record| Item {
            address: field(record, 0),
            line: field(record, 1),
            kind: field(record, 2),
            first_word: field(record, 3) as usize,
        })
    }
}

fn records(buffer: &[u8], size: usize, count: usize) -> impl Iterator<Item = &[u8]> {
    buffer.chunks_exact(size).take(count)
}

/// The kth field of four bytes.
fn field(record: &[u8], k: usize) -> u32 {
    let bytes = &record[4 * k..4 * k + 4];
    u32::from_le_bytes(bytes.try_into().expect("four bytes"))
}

impl Default for Buffers {
    fn default() -> Self {
        Self::new()
    }
}
