//! The call itself, through the static library of the crate `jig_c`.
//!
//! Nothing compares this declaration with the library: it follows the exported
//! call, where a slice is a pointer and then a length.

use crate::model::{Answer, Lent};

extern "C" {
    fn kodhlace_assemble(
        text: *const u8,
        text_len: usize,
        base: u32,
        words: *mut u32,
        words_len: usize,
        data_bytes: *mut u8,
        data_bytes_len: usize,
        labels: *mut u8,
        labels_len: usize,
        equates: *mut u8,
        equates_len: usize,
        items: *mut u8,
        items_len: usize,
        counts: *mut u64,
        counts_len: usize,
    ) -> u32;
}

/// What stands in a buffer before the call, so that clearing it is seen.
const GARBAGE: u8 = 0xA5;

/// The elements before and behind what is lent, which no call may touch.
const GUARD: usize = 64;

/// The numbers that a call counts.
pub const COUNTS: usize = 9;

/// A buffer of which a part is lent, with guards on both sides.
struct Buffer<T> {
    held: Vec<T>,
    lent: usize,
}

trait Garbage: Copy + PartialEq {
    const VALUE: Self;
    const ZERO: Self;
}

impl Garbage for u8 {
    const VALUE: u8 = GARBAGE;
    const ZERO: u8 = 0;
}

impl Garbage for u32 {
    const VALUE: u32 = 0xA5A5_A5A5;
    const ZERO: u32 = 0;
}

impl Garbage for u64 {
    const VALUE: u64 = 0xA5A5_A5A5_A5A5_A5A5;
    const ZERO: u64 = 0;
}

impl<T: Garbage> Buffer<T> {
    fn new() -> Self {
        Buffer {
            held: Vec::new(),
            lent: 0,
        }
    }

    /// Fills as much as will be lent, and its guards.
    fn fill(&mut self, lent: usize) {
        let length = lent + 2 * GUARD;
        if self.held.len() < length {
            self.held.resize(length, T::VALUE);
        }
        self.held[..length].fill(T::VALUE);
        self.lent = lent;
    }

    fn lend(&mut self) -> (*mut T, usize) {
        (self.held[GUARD..GUARD + self.lent].as_mut_ptr(), self.lent)
    }

    fn given(&self) -> &[T] {
        &self.held[GUARD..GUARD + self.lent]
    }

    fn is_guarded(&self) -> bool {
        let behind = GUARD + self.lent;
        let mut guards = self.held[..GUARD]
            .iter()
            .chain(&self.held[behind..behind + GUARD]);
        guards.all(|element| *element == T::VALUE)
    }

    /// Whether the used part is this and zeros follow it.
    fn is(&self, used: &[T]) -> bool {
        let given = self.given();
        used.len() <= given.len()
            && given[..used.len()] == *used
            && given[used.len()..]
                .iter()
                .all(|element| *element == T::ZERO)
    }
}

/// The buffers of all calls, made once.
pub struct Ours {
    words: Buffer<u32>,
    data: Buffer<u8>,
    labels: Buffer<u8>,
    equates: Buffer<u8>,
    items: Buffer<u8>,
    counts: Buffer<u64>,
}

impl Ours {
    pub fn new() -> Self {
        Ours {
            words: Buffer::new(),
            data: Buffer::new(),
            labels: Buffer::new(),
            equates: Buffer::new(),
            items: Buffer::new(),
            counts: Buffer::new(),
        }
    }

    /// Calls, and says what differs from the model's answer.
    pub fn differs(
        &mut self,
        text: &[u8],
        base: u32,
        lent: Lent,
        counts: usize,
        model: &Answer,
    ) -> Option<String> {
        let number = self.call(text, base, lent, counts);
        self.difference(number, model)
    }

    fn call(&mut self, text: &[u8], base: u32, lent: Lent, counts: usize) -> u32 {
        self.words.fill(lent.words);
        self.data.fill(lent.data);
        self.labels.fill(lent.labels);
        self.equates.fill(lent.equates);
        self.items.fill(lent.items);
        self.counts.fill(counts);
        let (words, words_len) = self.words.lend();
        let (data, data_len) = self.data.lend();
        let (labels, labels_len) = self.labels.lend();
        let (equates, equates_len) = self.equates.lend();
        let (items, items_len) = self.items.lend();
        let (counts, counts_len) = self.counts.lend();
        // SAFETY: each pointer and length is of one live buffer, and no two
        // overlap. The call asks nothing else.
        unsafe {
            kodhlace_assemble(
                text.as_ptr(),
                text.len(),
                base,
                words,
                words_len,
                data,
                data_len,
                labels,
                labels_len,
                equates,
                equates_len,
                items,
                items_len,
                counts,
                counts_len,
            )
        }
    }

    fn difference(&self, number: u32, model: &Answer) -> Option<String> {
        let guarded = [
            ("words", self.words.is_guarded()),
            ("data", self.data.is_guarded()),
            ("labels", self.labels.is_guarded()),
            ("equates", self.equates.is_guarded()),
            ("items", self.items.is_guarded()),
            ("counts", self.counts.is_guarded()),
        ];
        if let Some((name, _)) = guarded.iter().find(|(_, is_guarded)| !is_guarded) {
            return Some(format!("ours wrote outside what is lent: {name}"));
        }
        if number != u32::from(model.number) {
            return Some(format!("number: ours {number}, model {}", model.number));
        }
        let expected = counts_of(model);
        let lent = self.counts.lent;
        if !self.counts.is(&expected[..lent.min(COUNTS)]) {
            return Some(format!(
                "counts: ours {:?}, model {expected:?}",
                self.counts.given()
            ));
        }
        let same = [
            ("words", self.words.is(&model.words)),
            ("data", self.data.is(&model.data)),
            ("labels", self.labels.is(&model.labels)),
            ("equates", self.equates.is(&model.equates)),
            ("items", self.items.is(&model.items)),
        ];
        let other = same.iter().find(|(_, is_same)| !is_same);
        other.map(|(name, _)| format!("{name} differ: {}", self.shown(name)))
    }

    /// The used beginning of a buffer, for a finding.
    fn shown(&self, name: &str) -> String {
        let bytes = match name {
            "words" => {
                let words = self.words.given().iter().take(32);
                return words.map(|word| format!("{word:08X} ")).collect();
            }
            "data" => self.data.given(),
            "labels" => self.labels.given(),
            "equates" => self.equates.given(),
            _ => self.items.given(),
        };
        bytes
            .iter()
            .take(96)
            .map(|byte| format!("{byte:02X}"))
            .collect()
    }

    /// One call, and all that it gave, for a reader.
    pub fn show(&mut self, text: &[u8], base: u32, lent: Lent) -> String {
        let number = self.call(text, base, lent, COUNTS);
        let mut shown = format!("number {number}, counts {:?}\n", self.counts.given());
        for name in ["words", "data", "labels", "equates", "items"] {
            shown.push_str(&format!("  {name}: {}\n", self.shown(name)));
        }
        shown
    }
}

/// The nine numbers of an answer, in the exported call's order.
pub fn counts_of(answer: &Answer) -> [u64; COUNTS] {
    let counts = answer.counts;
    [
        u64::from(answer.line),
        counts.words,
        counts.data_bytes,
        counts.data_base,
        counts.bss_size,
        counts.labels,
        counts.equates,
        counts.items,
        counts.evaluations,
    ]
}

/// A call on buffers that are exactly as long as what is lent, and freshly
/// made, so that a tool that watches memory sees any step beyond them. It says
/// whether the answer is the model's.
pub fn exact_call(text: &[u8], base: u32, lent: Lent, model: &Answer) -> bool {
    let text = text.to_vec().into_boxed_slice();
    let mut words = vec![u32::VALUE; lent.words].into_boxed_slice();
    let mut data = vec![GARBAGE; lent.data].into_boxed_slice();
    let mut labels = vec![GARBAGE; lent.labels].into_boxed_slice();
    let mut equates = vec![GARBAGE; lent.equates].into_boxed_slice();
    let mut items = vec![GARBAGE; lent.items].into_boxed_slice();
    let mut counts = vec![u64::VALUE; COUNTS].into_boxed_slice();
    // SAFETY: as above.
    let number = unsafe {
        kodhlace_assemble(
            text.as_ptr(),
            text.len(),
            base,
            words.as_mut_ptr(),
            words.len(),
            data.as_mut_ptr(),
            data.len(),
            labels.as_mut_ptr(),
            labels.len(),
            equates.as_mut_ptr(),
            equates.len(),
            items.as_mut_ptr(),
            items.len(),
            counts.as_mut_ptr(),
            counts.len(),
        )
    };
    number == u32::from(model.number)
        && counts[..] == counts_of(model)
        && is_used(&words, &model.words)
        && is_used(&data, &model.data)
        && is_used(&labels, &model.labels)
        && is_used(&equates, &model.equates)
        && is_used(&items, &model.items)
}

/// Whether the buffer is the used part and zeros.
fn is_used<T: Garbage>(given: &[T], used: &[T]) -> bool {
    used.len() <= given.len()
        && given[..used.len()] == *used
        && given[used.len()..]
            .iter()
            .all(|element| *element == T::ZERO)
}

/// The wrapper's own tests. The library is not linked into them: a stand-in
/// answers by the model, with a fault if one is asked for.
#[cfg(all(test, not(feature = "library")))]
mod tests {
    use std::slice::from_raw_parts_mut;
    use std::sync::atomic::{AtomicUsize, Ordering};
    use std::sync::Mutex;

    use super::*;
    use crate::model;

    static FAULT: AtomicUsize = AtomicUsize::new(0);
    static ONE_AT_A_TIME: Mutex<()> = Mutex::new(());

    #[no_mangle]
    unsafe extern "C" fn kodhlace_assemble(
        text: *const u8,
        text_len: usize,
        base: u32,
        words: *mut u32,
        words_len: usize,
        data_bytes: *mut u8,
        data_bytes_len: usize,
        labels: *mut u8,
        labels_len: usize,
        equates: *mut u8,
        equates_len: usize,
        items: *mut u8,
        items_len: usize,
        counts: *mut u64,
        counts_len: usize,
    ) -> u32 {
        let lent = Lent {
            words: words_len,
            data: data_bytes_len,
            labels: labels_len,
            equates: equates_len,
            items: items_len,
        };
        let text = std::slice::from_raw_parts(text, text_len);
        let (mut answer, _) = model::assemble(text, base, lent);
        let fault = FAULT.load(Ordering::Relaxed);
        match fault {
            1 => answer.number ^= 1,
            2 => answer.line += 1,
            3 => answer.counts.evaluations += 1,
            4 => answer.words.iter_mut().for_each(|word| *word ^= 1 << 31),
            5 => answer.data.iter_mut().for_each(|byte| *byte ^= 1),
            6 => answer.labels.iter_mut().for_each(|byte| *byte ^= 1),
            7 => answer.equates.iter_mut().for_each(|byte| *byte ^= 1),
            8 => answer.items.iter_mut().for_each(|byte| *byte ^= 1),
            _ => {}
        }
        fn give<T: Garbage>(to: *mut T, length: usize, used: &[T], from: &str, fault: usize) {
            // SAFETY: the wrapper lends so many elements.
            let to = unsafe { from_raw_parts_mut(to, length) };
            for (place, element) in to.iter_mut().enumerate() {
                match used.get(place) {
                    Some(value) => *element = *value,
                    // The last element is not cleared, in one buffer.
                    None if place + 1 == length && fault == 100 + from.len() => {}
                    None => *element = T::ZERO,
                }
            }
        }
        give(words, words_len, &answer.words, "w", fault);
        give(data_bytes, data_bytes_len, &answer.data, "da", fault);
        give(labels, labels_len, &answer.labels, "lab", fault);
        give(equates, equates_len, &answer.equates, "equa", fault);
        give(items, items_len, &answer.items, "items", fault);
        let all = counts_of(&answer);
        give(
            counts,
            counts_len,
            &all[..counts_len.min(COUNTS)],
            "counts",
            fault,
        );
        // One element behind what is lent, or before it; the guards hold it.
        match fault {
            200 => *words.add(words_len) = 0,
            201 => *data_bytes.add(data_bytes_len) = 0,
            202 => *labels.sub(1) = 0,
            203 => *equates.add(equates_len) = 0,
            204 => *items.sub(1) = 0,
            205 => *counts.add(counts_len) = 0,
            _ => {}
        }
        u32::from(answer.number)
    }

    fn difference(fault: usize, text: &[u8], counts: usize) -> Option<String> {
        let _one = ONE_AT_A_TIME.lock();
        FAULT.store(fault, Ordering::Relaxed);
        let lent = Lent {
            words: 20,
            data: 20,
            labels: 40,
            equates: 60,
            items: 80,
        };
        let (answer, _) = model::assemble(text, 0, lent);
        let difference = Ours::new().differs(text, 0, lent, counts, &answer);
        let is_exact = fault >= 200 || exact_call(text, 0, lent, &answer);
        if fault < 200 && counts == COUNTS {
            assert_eq!(
                is_exact,
                difference.is_none(),
                "both ways to call say the same"
            );
        }
        FAULT.store(0, Ordering::Relaxed);
        difference
    }

    const ACCEPTED: &[u8] = b"a: li a0, 5\nn = 7\n.data\n.byte 1";

    #[test]
    fn the_models_answer_is_no_finding() {
        for counts in 0..12 {
            assert_eq!(difference(0, ACCEPTED, counts), None);
            assert_eq!(difference(0, b".section", counts), None);
        }
    }

    #[test]
    fn every_fault_is_found() {
        for fault in (1..=8).chain(101..=105).chain(200..=205) {
            assert!(
                difference(fault, ACCEPTED, COUNTS).is_some(),
                "fault {fault}"
            );
        }
        // More counts than nine are lent, and the last is not cleared.
        assert!(difference(106, ACCEPTED, COUNTS + 2).is_some());
        for fault in (1..=3).chain(101..=105).chain(200..=205) {
            assert!(
                difference(fault, b".section", COUNTS).is_some(),
                "fault {fault}"
            );
        }
    }
}
