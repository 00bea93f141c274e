//! The layout for safe Rust: the declaration of the one call, a wrapper that
//! anyone may call with anything, and the answer taken apart.
//!
//! What the call promises is proved (`Called` in crates/jig/specs/Called.antt);
//! what it asks is listed in examples/c/kodhlace.h. Of that, Rust's references
//! give all that is about pointers, lengths, overlap and other threads; the
//! machine is tested when this is compiled; the stack is left to the caller.

extern "C" {
    // A slice is a pointer and then a length.
    fn kodhlace_assemble(
        text: *const u8,
        text_len: usize,
        base: u32,
        words: *mut u32,
        words_len: usize,
        data_bytes: *mut u8,
        data_bytes_len: usize,
        labels: *mut u8,
        labels_len: usize,
        equates: *mut u8,
        equates_len: usize,
        items: *mut u8,
        items_len: usize,
        counts: *mut u64,
        counts_len: usize,
    ) -> u32;
}

// The library is for Linux on x86-64, with lengths of 64 bits.
const _: () = assert!(cfg!(all(target_os = "linux", target_arch = "x86_64")));
const _: () = assert!(std::mem::size_of::<usize>() == 8);

/// More bytes of text are refused with 41.
pub const TEXT_LIMIT: usize = 65_536;

const WORD_LIMIT: usize = 16_384;
const DATA_LIMIT: usize = 65_536;
const LABEL_LIMIT: usize = 1_024;
const EQUATE_LIMIT: usize = 256;
const ITEM_LIMIT: usize = 2_048;

const LABEL_SIZE: usize = 16;
const EQUATE_SIZE: usize = 24;
const ITEM_SIZE: usize = 24;

/// Why there is no layout: document 01's number, and the line counted from 0.
#[derive(Clone, Copy, Debug, PartialEq, Eq)]
pub struct Refusal {
    pub number: u32,
    pub line: usize,
}

/// What the call counts of an accepted layout.
#[derive(Clone, Copy, Debug, PartialEq, Eq)]
pub struct Counts {
    pub words: usize,
    pub data_bytes: usize,
    pub data_base: u32,
    pub bss_size: usize,
    pub labels: usize,
    pub equates: usize,
    pub items: usize,
    pub evaluations: usize,
}

/// Lays out a text at a base, both any, into buffers of any length: `words`
/// counts in words, the others in bytes, and of a record only a whole one counts.
/// Every element is written: the layout and zeros after it, or zeros where it is
/// refused.
pub fn assemble(
    text: &[u8],
    base: u32,
    words: &mut [u32],
    data_bytes: &mut [u8],
    labels: &mut [u8],
    equates: &mut [u8],
    items: &mut [u8],
) -> Result<Counts, Refusal> {
    let mut counts = [0u64; 9];
    // SAFETY: each pointer and length are of one slice. So the pointer is aligned
    // and not null, and valid for the length, which is below 2^63 bytes; no one
    // else writes there meanwhile; and as all but the text are `&mut`, no two
    // overlap, and no one else reads them.
    let number = unsafe {
        kodhlace_assemble(
            text.as_ptr(),
            text.len(),
            base,
            words.as_mut_ptr(),
            words.len(),
            data_bytes.as_mut_ptr(),
            data_bytes.len(),
            labels.as_mut_ptr(),
            labels.len(),
            equates.as_mut_ptr(),
            equates.len(),
            items.as_mut_ptr(),
            items.len(),
            counts.as_mut_ptr(),
            counts.len(),
        )
    };
    let [line, words, data_bytes, data_base, bss_size, labels, equates, items, evaluations] =
        counts.map(|n| n as usize);
    if number != 0 {
        return Err(Refusal { number, line });
    }
    Ok(Counts {
        words,
        data_bytes,
        data_base: data_base as u32,
        bss_size,
        labels,
        equates,
        items,
        evaluations,
    })
}

/// Buffers to lend, of any length, and what a call leaves in them.
pub struct Buffers {
    pub words: Vec<u32>,
    pub data_bytes: Vec<u8>,
    pub labels: Vec<u8>,
    pub equates: Vec<u8>,
    pub items: Vec<u8>,
}

impl Buffers {
    /// Room for everything that is not refused anyway.
    pub fn full() -> Buffers {
        Buffers {
            words: vec![0; WORD_LIMIT],
            data_bytes: vec![0; DATA_LIMIT],
            labels: vec![0; LABEL_LIMIT * LABEL_SIZE],
            equates: vec![0; EQUATE_LIMIT * EQUATE_SIZE],
            items: vec![0; ITEM_LIMIT * ITEM_SIZE],
        }
    }

    /// `assemble` into these.
    pub fn assemble(&mut self, text: &[u8], base: u32) -> Result<Counts, Refusal> {
        assemble(
            text,
            base,
            &mut self.words,
            &mut self.data_bytes,
            &mut self.labels,
            &mut self.equates,
            &mut self.items,
        )
    }
}

/// A part of the text.
#[derive(Clone, Copy, Debug, PartialEq, Eq)]
pub struct Span {
    pub start: usize,
    pub len: usize,
}

impl Span {
    pub fn of(self, text: &[u8]) -> &[u8] {
        &text[self.start..self.start + self.len]
    }
}

#[derive(Clone, Copy, Debug, PartialEq, Eq)]
pub struct Label {
    pub name: Span,
    pub address: u32,
    pub line: usize,
}

#[derive(Clone, Copy, Debug, PartialEq, Eq)]
pub struct Equate {
    pub name: Span,
    pub line: usize,
    pub value: i64,
    pub round: u32,
}

/// The kind of an ordinary instruction line, whose word is 0.
pub const ORDINARY: u32 = 0;

#[derive(Clone, Copy, Debug, PartialEq, Eq)]
pub struct Item {
    /// base + 4 * first_word
    pub address: u32,
    pub line: usize,
    /// `ORDINARY`, or 1 to 9: li, la, push, pop, print, print_str, read,
    /// read_byte, random.
    pub kind: u32,
    pub first_word: usize,
    pub source: Span,
}

fn u32_at(record: &[u8], at: usize) -> u32 {
    u32::from_le_bytes(record[at..at + 4].try_into().expect("four bytes"))
}

fn span_at(record: &[u8], at: usize) -> Span {
    Span {
        start: u32_at(record, at) as usize,
        len: u32_at(record, at + 4) as usize,
    }
}

impl Buffers {
    /// The labels of an accepted layout, by address and then by name.
    pub fn labels(&self, counts: &Counts) -> Vec<Label> {
        let record = |r: &[u8]| Label {
            name: span_at(r, 0),
            address: u32_at(r, 8),
            line: u32_at(r, 12) as usize,
        };
        self.labels
            .chunks_exact(LABEL_SIZE)
            .take(counts.labels)
            .map(record)
            .collect()
    }

    /// The equates of an accepted layout, in text order.
    pub fn equates(&self, counts: &Counts) -> Vec<Equate> {
        let record = |r: &[u8]| Equate {
            name: span_at(r, 0),
            line: u32_at(r, 8) as usize,
            value: i64::from_le_bytes(r[12..20].try_into().expect("eight bytes")),
            round: u32_at(r, 20),
        };
        self.equates
            .chunks_exact(EQUATE_SIZE)
            .take(counts.equates)
            .map(record)
            .collect()
    }

    /// The items of an accepted layout, in text order.
    pub fn items(&self, counts: &Counts) -> Vec<Item> {
        let record = |r: &[u8]| Item {
            address: u32_at(r, 0),
            line: u32_at(r, 4) as usize,
            kind: u32_at(r, 8),
            first_word: u32_at(r, 12) as usize,
            source: span_at(r, 16),
        };
        self.items
            .chunks_exact(ITEM_SIZE)
            .take(counts.items)
            .map(record)
            .collect()
    }
}

/// What a refusal's number means.
pub fn meaning(number: u32) -> &'static str {
    match number {
        1 => "a byte above 127: a source is plain ASCII, comments too",
        2 => ".section names no section",
        3 => "this section is not known: text, data, rodata, sdata, srodata, bss and sbss are",
        4 => ".globl or .global names no symbol",
        5 => ".equ or .set lacks its name or its expression",
        6 => "this operand cannot be read as a number",
        7 => "this operand is out of range: an alignment below 1, a size below 0, or too large for the byte or half",
        8 => "this .word operand is neither a number nor a name",
        9 => "this string lacks a quote, has an unknown escape or an octal above 377, or has text beside it",
        10 => "this is no directive of the data section",
        11 => "this is no directive of the bss section",
        12 => "bss stores nothing: only room can be reserved there",
        13 => "this .word names a label that is defined nowhere",
        14 => "this equate is named as a label",
        15 => "an equate of this name has a value already",
        16 => "this expression is malformed",
        17 => "this equate cannot be resolved: it leads back to itself, to equates that do, or to a name that is defined nowhere",
        18 => "this pseudo-instruction has the wrong number of operands, a bad register, or a register in place of a label",
        19 => "li's second operand is neither a number of 32 bits nor an equate whose value fits 32 signed bits",
        20 => "this label is defined nowhere",
        21 => "floats, and the pseudo-instructions beside the nine, are not laid out",
        22 => "a register above 31",
        23 => "a number that its instruction's field cannot hold",
        24 => "this expression leaves 64 signed bits on the way",
        40 => "the base is above 0xFF000000",
        41 => "the text has more than 65,536 bytes",
        42 => "the data take more than 65,536 bytes, or more than are lent",
        43 => "bss takes more than 1,048,576 bytes",
        44 => "the text section takes more than 16,384 words, or more than are lent",
        45 => "more than 1,024 labels, or than records are lent",
        46 => "more than 256 equates, or than records are lent",
        47 => "more than 1,024 .word operands name labels",
        48 => "more than 2,048 instruction lines, or than records are lent",
        _ => "no number of document 01",
    }
}
