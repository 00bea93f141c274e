//! Lines of strings: every escape, octals of every length, punctuation, labels
//! of every shape, blanks at every place, and what W-201 refuses.

use differential::random::Random;

use super::mutate::change_bytes;
use super::parts::Writer;
use super::settings;
use crate::model::{self, Lent, LABEL_SIZE};

/// What trimming takes away, but for LF.
const WHITE: [&str; 5] = ["\t", "\x0b", "\x0c", "\r", " "];

const ESCAPES: [&str; 7] = ["\\b", "\\f", "\\n", "\\r", "\\t", "\\\\", "\\\""];

/// Octals at their edges: one to four digits, 8 and 9 among them.
const OCTALS: [&str; 21] = [
    "\\0", "\\7", "\\8", "\\9", "\\00", "\\08", "\\77", "\\80", "\\99", "\\000", "\\008", "\\101",
    "\\1234", "\\177", "\\200", "\\299", "\\369", "\\376", "\\377", "\\3770", "\\0377",
];

/// Octals above 377.
const ODD_OCTALS: [&str; 7] = [
    "\\378", "\\379", "\\387", "\\400", "\\777", "\\999", "\\4000",
];

const ODD_ESCAPES: [&str; 14] = [
    "\\q", "\\x41", "\\X41", "\\'", "\\a", "\\v", "\\e", "\\N", "\\ ", "\\\t", "\\:", "\\;", "\\#",
    "\\/",
];

/// Bytes that mean something elsewhere, and bytes that mean nothing.
const PUNCTUATION: [&str; 18] = [
    ":", ";", "#", ",", "'", "=", " ", "\t", ".", "%", "+", "-", "\x0b", "\r", "\0", "\x7f", "//",
    "/*",
];

const LABELS: [&str; 12] = [
    "x:", "x :", " x:", "x:\t", "y:", "a b:", ":", "5:", ".L1:", ".ascii:", "nop:", "x=1:",
];

/// Labels with a quote in them, and lines with more than one.
const ODD_LABELS: [&str; 14] = [
    "\":",
    "\"q\":",
    "a\"b:",
    "x\":",
    "\" :",
    "\"\":",
    "x: y:",
    "x: \":",
    "::",
    ".ascii \"a:",
    ".ascii \"a\":",
    "\";",
    "\"#",
    ".data:",
];

const DIRECTIVES: [&str; 3] = [".ascii", ".asciz", ".string"];

const ODD_DIRECTIVES: [&str; 14] = [
    ".asciiz", ".strings", ".string8", ".asciz5", ".asci", ".Ascii", ".ascii.", ".str", "ascii",
    ".byte", ".ascii:", ".asciz#", ".string;", ". ascii",
];

const BEHIND: [&str; 12] = [
    "x",
    "\"",
    "\"b\"",
    " \"b\"",
    ",\"b\"",
    ":",
    " :",
    ": .byte 1",
    "\\",
    "\\n",
    ",",
    "\0",
];

const COMMENTS: [&str; 12] = [
    "#", ";", "# note", "; note", "#\"", ";\"", "# a:", "; \"b\"", "#\\", "#;", ";#", "#! seen",
];

pub fn text(random: &mut Random) -> Vec<u8> {
    let odd = [0, 5, 20, 60, 200][random.below(5)];
    let lines = 1 + random.below(5);
    let mut writer = Writer {
        random,
        text: Vec::with_capacity(128),
        odd,
    };
    let section = match writer.random.below(16) {
        0 => "",
        1 => ".bss\n",
        2 => "nop\n.data # \"\n",
        3 => ".section .rodata\n",
        _ => ".data\n",
    };
    writer.put(section);
    for _ in 0..lines {
        match writer.random.below(8) {
            0 => writer.between(),
            _ => writer.string_line(),
        }
        writer.put("\n");
    }
    writer.pick(&[
        "",
        "z:",
        "z: .byte 255",
        ".word x\n",
        "n = . - x\n",
        ".bss\nz:",
    ]);
    if writer.one_in(8) {
        for _ in 0..1 + writer.random.below(3) {
            change_bytes(&mut writer.text, writer.random);
        }
    }
    writer.text
}

impl Writer<'_> {
    /// A line that shows what came of the strings, or another section.
    fn between(&mut self) {
        self.pick(&[
            "x:",
            "y:",
            ".byte 1",
            ".align 4",
            ".word x",
            "n = 5",
            "m = . - x",
            "",
            "# \"",
            ".data",
            ".section .rodata",
            ".section .note.GNU-stack",
            ".text",
            ".bss",
            ".section data: .ascii \":\"",
            ".float 1",
        ]);
    }

    fn string_line(&mut self) {
        self.white();
        if self.is_odd() {
            self.pick(&ODD_LABELS);
        } else if self.one_in(2) {
            self.pick(&LABELS);
        }
        self.white();
        match self.is_odd() {
            true => self.pick(&ODD_DIRECTIVES),
            false => self.pick(&DIRECTIVES),
        }
        if self.one_in(2) {
            self.put(" ");
        }
        self.white();
        if self.is_odd() {
            self.pick(&["#", ";", "x", ",", "'", ":", "\\", "a\"", "\0"]);
        }
        self.put("\"");
        for _ in 0..self.random.below(7) {
            self.piece();
        }
        if !self.is_odd() {
            self.put("\"");
        } else if self.one_in(2) {
            self.put("\\");
        }
        self.white();
        if self.is_odd() {
            self.pick(&BEHIND);
            self.white();
        }
        if self.one_in(6) {
            self.pick(&COMMENTS);
            if self.one_in(8) {
                self.many("\"");
            }
        }
    }

    /// Sometimes one blank or more, of any kind; rarely many.
    fn white(&mut self) {
        if self.one_in(5) {
            self.pick(&WHITE);
            while self.one_in(3) {
                self.pick(&WHITE);
            }
        }
        if self.one_in(60) {
            self.many(" ");
        }
    }

    /// So many that whoever looks at several bytes at a time does so.
    fn many(&mut self, piece: &str) {
        let count = self.random.below(70);
        self.put(&piece.repeat(count));
    }

    /// A part of what stands between the quotes.
    fn piece(&mut self) {
        match self.random.below(12) {
            0..=2 => self.pick(&["a", "n", "8", "12", "row", "N 12 E", "x:", "3"]),
            3..=5 => self.pick(&PUNCTUATION),
            6..=7 => self.pick(&ESCAPES),
            8 => self.pick(&OCTALS),
            9 if self.is_odd() => self.odd_piece(),
            9 if self.one_in(3) => {
                let piece = self.random.pick(&["a", ".", " ", ":", "#", "\\\"", "\\n"]);
                self.many(piece);
            }
            _ => self.digits(),
        }
    }

    /// A backslash and one to four digits, mostly up to 377.
    fn digits(&mut self) {
        self.put("\\");
        let length = 1 + self.random.below(4);
        for place in 0..length {
            let digits = match (place, length) {
                // Of three digits the first decides.
                (0, 3..) if !self.is_odd() => 3,
                _ => 10,
            };
            let digit = b'0' + self.random.below(digits) as u8;
            self.text.push(digit);
        }
    }

    /// What is refused, and a backslash before any byte.
    fn odd_piece(&mut self) {
        match self.random.below(4) {
            0 => self.pick(&ODD_OCTALS),
            1 => self.pick(&ODD_ESCAPES),
            2 => self.pick(&["\"", "\\", "\"\"", "\\\n"]),
            _ => {
                self.put("\\");
                let byte = self.random.below(128) as u8;
                self.text.push(byte);
            }
        }
    }
}

/// Often just the data that an accepted text takes, a byte or a few less, or one
/// more; or few labels and little data, so that 45, 9 and 42 meet.
pub fn lent(random: &mut Random, text: &[u8], base: u32) -> Lent {
    let mut lent = settings::AMPLE;
    let answer = model::assemble(text, base, Lent::FULL).0;
    let data = answer.data.len();
    match random.below(12) {
        0 => return settings::lent(random),
        1 => {
            lent.data = random.below(8);
            lent.labels = LABEL_SIZE * random.below(3);
        }
        _ if answer.number != 0 => {}
        2..=4 => lent.data = data,
        5..=6 => lent.data = data.saturating_sub(1),
        7 => lent.data = data.saturating_sub(2 + random.below(4)),
        8 => lent.data = data + 1,
        9 => lent.labels = answer.labels.len().saturating_sub(random.below(2)),
        _ => {}
    }
    lent
}
