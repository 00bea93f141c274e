//! All short texts over a topic's alphabet: each sequence of its pieces, up to
//! a length, between a beginning and an end.

pub struct Topic {
    pub name: &'static str,
    pub before: &'static str,
    pub pieces: &'static [&'static str],
    pub after: &'static str,
    /// The most pieces in a row.
    pub longest: u32,
}

pub const TOPICS: [Topic; 25] = [
    Topic {
        name: "equates by the byte",
        before: "",
        pieces: &["a", "b", "=", "+", "-", ".", "1", ",", "\n"],
        after: "",
        longest: 7,
    },
    Topic {
        name: "expressions",
        before: "b=7\na=",
        pieces: &[
            "a", "b", "c", "+", "-", ".", "0", "9", "x", " ", "(", "\x0b",
        ],
        after: "\nc:",
        longest: 6,
    },
    Topic {
        name: "numbers in expressions",
        before: "a=",
        pieces: &["0", "1", "x", "b", "f", "g", "9", "$", "X", "+"],
        after: "",
        longest: 6,
    },
    Topic {
        name: "signs at the edges of 64 bits",
        before: "m=-9223372036854775807-1\na=",
        pieces: &["m", "+", "-", "1", "9223372036854775807", "u", " "],
        after: "",
        longest: 7,
    },
    Topic {
        name: "parting of .equ",
        before: ".equ",
        pieces: &["a", "5", ",", " ", "\t", "\x0b", "+", "b", "\r"],
        after: "\nli a0, a",
        longest: 6,
    },
    Topic {
        name: "equates by the line",
        before: "",
        pieces: &[
            "a=b\n",
            "b=a\n",
            "a=1\n",
            "b=c+1\n",
            "c=5\n",
            "c=a-b\n",
            "a:\n",
            "li a0,a\n",
            ".equ b 1\n",
            "c=(\n",
            "b=.\n",
        ],
        after: "",
        longest: 6,
    },
    Topic {
        name: "numbers",
        before: ".data\n.dword ",
        pieces: &["+", "-", "0", "1", "x", "b", "'", "9", " ", "f"],
        after: "",
        longest: 6,
    },
    Topic {
        name: "character literals",
        before: ".data\n.byte ",
        pieces: &["'", "\\", "n", "0", "a", " ", "\t", ",", "\""],
        after: "",
        longest: 6,
    },
    Topic {
        name: "cutting of lines",
        before: "",
        pieces: &[":", ";", "#", ".", "a", " ", "\t", "\n", "=", "\x0c"],
        after: "\na:",
        longest: 6,
    },
    Topic {
        name: "data lines",
        before: ".data\n",
        pieces: &[
            ".byte ", ".word ", ".half", ".align ", ".space ", "1", "3", "a", ",", "\n", ":", "-",
            ".dword",
        ],
        after: "",
        longest: 5,
    },
    Topic {
        name: "alignment",
        before: ".data\n",
        pieces: &[
            ".byte 1\n",
            ".align 2\n",
            ".align 3\n",
            ".align 4\n",
            ".align 6\n",
            ".half 2\n",
            "x:\n",
            ".word x\n",
            ".bss\n",
            ".data\n",
        ],
        after: "y:",
        longest: 6,
    },
    Topic {
        name: "bss lines",
        before: ".bss\n",
        pieces: &[
            ".space ", ".skip ", ".zero", ".align ", ".byte ", "1", "6", "a", ":", "\n", "-",
        ],
        after: "\nz:",
        longest: 5,
    },
    Topic {
        name: "strings",
        before: ".data\n.asciz",
        pieces: &["\"", "\\", "n", "8", "3", ":", "#", ";", "a", " ", "\t"],
        after: "\n",
        longest: 6,
    },
    Topic {
        name: "strings behind a label",
        before: ".data\nx: .ascii",
        pieces: &["\"", "\\", "n", "8", "3", ":", "#", ";", "a", " ", ","],
        after: "\ny:",
        longest: 6,
    },
    Topic {
        name: "escapes",
        before: ".data\n.ascii \"",
        pieces: &["\\", "\"", "0", "3", "4", "7", "8", "n", "q", " "],
        after: "\"\nx:",
        longest: 6,
    },
    Topic {
        name: "octal digits",
        before: ".data\n.string \"\\",
        pieces: &["0", "1", "2", "3", "4", "5", "6", "7", "8", "9"],
        after: "\"",
        longest: 4,
    },
    Topic {
        name: "labels of strings",
        before: ".data\n",
        pieces: &["\"", ":", ".ascii", ".asciz ", "a", " ", "#", "\\n", "\\\""],
        after: "\ny:",
        longest: 6,
    },
    Topic {
        name: "blanks beside strings",
        before: ".data\n.string",
        pieces: &["\t", "\x0b", "\x0c", "\r", " ", "\"a\"", "#", "x", "\0"],
        after: "\ny:",
        longest: 5,
    },
    Topic {
        name: "strings by the section",
        before: "",
        pieces: &[
            ".data\n",
            ".text\n",
            ".bss\n",
            ".section .rodata\n",
            ".ascii \"a:b\"\n",
            "x: .asciz \"#\\n\"\n",
            ".string \"a\n",
            "\": .ascii \"a\\n\"\n",
            ".word x\n",
            ".align 4\n",
            "x:\n",
        ],
        after: "",
        longest: 5,
    },
    Topic {
        name: "pseudos",
        before: "x:\nn=5\n",
        pieces: &[
            "li ",
            "la ",
            "push ",
            "print_str",
            "read",
            " ",
            "a0",
            ",",
            "x",
            "5",
            "\t",
            "\n",
            "n",
        ],
        after: "\ny:",
        longest: 5,
    },
    Topic {
        name: "values of lis by name",
        before: "n=",
        pieces: &["+", "-", "1", "2048", "4096", "2147483648", "n"],
        after: "\nli a0, n\nx: la a1, x",
        longest: 6,
    },
    Topic {
        name: "lis by name",
        before: "",
        pieces: &[
            "n=5\n",
            "n=-2049\n",
            "4294967296=7\n",
            "5=9\n",
            "li a0,n\n",
            "li x0,4294967296\n",
            "li a1,5\n",
            "x: ecall\n",
            "n:\n",
        ],
        after: "y: la a2,y",
        longest: 6,
    },
    Topic {
        name: "section names",
        before: ".section",
        pieces: &[
            ".",
            " ",
            ",",
            "text",
            "data",
            "bss",
            "s",
            "ro",
            ".note.GNU-stack",
            "\t",
            "x:",
        ],
        after: "\n.byte 1",
        longest: 5,
    },
    Topic {
        name: "registers",
        before: "push ",
        pieces: &[
            "x", "X", "+", "-", "0", "1", "3", "9", "a", "s", "t", "p", "Ra", "zero",
        ],
        after: "",
        longest: 5,
    },
    Topic {
        name: "names in pseudos",
        before: "",
        pieces: &[
            "a b:\n",
            "a  b:\n",
            "a b=1\n",
            "a\tb=2\n",
            "la a0,a b\n",
            "la a0,a  b\n",
            "li a0,a\tb\n",
            "li a0, a b\n",
            "a:\n",
        ],
        after: "",
        longest: 6,
    },
];

impl Topic {
    pub fn total(&self) -> u64 {
        let pieces = self.pieces.len() as u64;
        (0..=self.longest).map(|length| pieces.pow(length)).sum()
    }

    /// The text of that number: shorter ones first.
    fn text(&self, mut number: u64) -> Vec<u8> {
        let pieces = self.pieces.len() as u64;
        let mut length = 0;
        while number >= pieces.pow(length) {
            number -= pieces.pow(length);
            length += 1;
        }
        let mut text = self.before.as_bytes().to_vec();
        for _ in 0..length {
            text.extend_from_slice(self.pieces[(number % pieces) as usize].as_bytes());
            number /= pieces;
        }
        text.extend_from_slice(self.after.as_bytes());
        text
    }
}

pub fn total() -> u64 {
    TOPICS.iter().map(Topic::total).sum()
}

pub fn text(mut number: u64) -> Vec<u8> {
    for topic in &TOPICS {
        if number < topic.total() {
            return topic.text(number);
        }
        number -= topic.total();
    }
    unreachable!("the number is below the total")
}
