//! The parts of lines: names, numbers, registers, blanks, comments.

use differential::random::Random;

/// A source in the making.
pub struct Writer<'r> {
    pub random: &'r mut Random,
    pub text: Vec<u8>,
    /// How often something odd is written, of 1,000.
    pub odd: usize,
}

pub const NAMES: [&str; 14] = [
    "a", "b", "c", "d", "x", "y", "msg", "loop", ".L1", "_s", "n1", "N", "z$9", "t_0",
];

const ODD_NAMES: [&str; 26] = [
    "",
    ".",
    "..",
    "$",
    "5x",
    "5",
    "a b",
    "a  b",
    "a\tb",
    "-a",
    "a-b",
    "a=b",
    "'a'",
    "''",
    "\"q\"",
    "a,b",
    "a0",
    "x5",
    "li",
    ".word",
    ".data",
    "\0",
    "a\0",
    "~",
    "0x",
    "99999999999",
];

const BLANKS: [&str; 10] = [
    "", "  ", "\t", " \t ", "\x0b", "\x0c", "\r", "\t\t", " \x0b", "   ",
];

const COMMENTS: [&str; 10] = [
    "# note",
    "; note",
    "#! seen",
    "##! block",
    "#;",
    ";#",
    "# a: .word b = c",
    "; x:",
    "#\"'",
    "#",
];

const LIMITS: [i128; 44] = [
    0,
    1,
    2,
    3,
    4,
    7,
    8,
    127,
    128,
    255,
    256,
    2047,
    2048,
    2049,
    4095,
    4096,
    65_535,
    65_536,
    0x7FFF_F7FF,
    0x7FFF_F800,
    0x7FFF_FFFF,
    0x8000_0000,
    0x8000_0001,
    0xFFFF_F7FF,
    0xFFFF_F800,
    0xFFFF_FFFF,
    0x1_0000_0000,
    0x7FFF_FFFF_FFFF_FFFF,
    0x8000_0000_0000_0000,
    0xFFFF_FFFF_FFFF_FFFF,
    0x1_0000_0000_0000_0000,
    -1,
    -2,
    -128,
    -2047,
    -2048,
    -2049,
    -4096,
    -0x7FFF_FFFF,
    -0x8000_0000,
    -0x8000_0001,
    -0x7FFF_FFFF_FFFF_FFFF,
    -0x8000_0000_0000_0000,
    -0x8000_0000_0000_0001,
];

const ABI: [&str; 34] = [
    "zero", "ra", "sp", "gp", "tp", "t0", "t1", "t2", "s0", "fp", "s1", "a0", "a1", "a2", "a3",
    "a4", "a5", "a6", "a7", "s2", "s3", "s4", "s5", "s6", "s7", "s8", "s9", "s10", "s11", "t3",
    "t4", "t5", "t6", "x0",
];

const ODD_REGISTERS: [&str; 20] = [
    "x32",
    "x-0",
    "x+",
    "x",
    "x 5",
    "x255",
    "x256",
    "x99999999999",
    "a8",
    "s12",
    "t7",
    "r0",
    "5",
    "x0x5",
    "pc",
    "X031",
    "x+031",
    "x000000000000000000000031",
    "zeros",
    "f0",
];

impl Writer<'_> {
    pub fn put(&mut self, text: &str) {
        self.text.extend_from_slice(text.as_bytes());
    }

    pub fn one_in(&mut self, count: usize) -> bool {
        self.random.below(count) == 0
    }

    pub fn is_odd(&mut self) -> bool {
        self.random.below(1000) < self.odd
    }

    pub fn pick(&mut self, choices: &[&str]) {
        let choice = self.random.pick(choices);
        self.put(choice);
    }

    /// Where a blank must be.
    pub fn blank(&mut self) {
        match self.random.below(24) {
            0 => {
                let blank = BLANKS[1 + self.random.below(BLANKS.len() - 1)];
                self.put(blank);
            }
            _ => self.put(" "),
        }
    }

    /// Where a blank may be.
    pub fn gap(&mut self) {
        match self.random.below(12) {
            0 => self.pick(&BLANKS),
            1..=3 => self.put(" "),
            _ => {}
        }
    }

    /// Space, tab and CR only: what an expression takes for a blank.
    pub fn plain_gap(&mut self) {
        match self.random.below(10) {
            0 => self.pick(&["\t", "  ", "\r", ","]),
            1..=4 => self.put(" "),
            _ => {}
        }
    }

    pub fn end_line(&mut self) {
        if self.one_in(16) {
            self.blank();
            self.pick(&COMMENTS);
        } else if self.one_in(24) {
            self.pick(&BLANKS);
        }
        self.put("\n");
    }

    pub fn name(&mut self) {
        if self.is_odd() {
            self.pick(&ODD_NAMES);
        } else {
            self.known_name();
        }
    }

    /// One of few names, so that they meet.
    pub fn known_name(&mut self) {
        let few = match self.random.below(4) {
            0 => NAMES.len(),
            _ => 5,
        };
        self.pick(&NAMES[..few]);
    }

    pub fn register(&mut self) {
        if self.is_odd() {
            self.pick(&ODD_REGISTERS);
            return;
        }
        match self.random.below(8) {
            0 => {
                let number = self.random.below(32);
                let text = match self.random.below(4) {
                    0 => format!("x{number:02}"),
                    1 => format!("x+{number}"),
                    2 => format!("X{number}"),
                    _ => format!("x{number}"),
                };
                self.put(&text);
            }
            1 => {
                let name = self.random.pick(&ABI).to_uppercase();
                self.put(&name);
            }
            2..=4 => self.pick(&ABI),
            _ => self.pick(&["a0", "a1", "t0", "sp"]),
        }
    }

    /// A value: mostly small, often at a limit, rarely anything.
    pub fn value(&mut self) -> i128 {
        match self.random.below(10) {
            0..=4 => self.random.below(256) as i128,
            5..=7 => LIMITS[self.random.below(LIMITS.len())],
            8 => self.random.below(70_000) as i128 - 2_500,
            _ => {
                let magnitude = i128::from(self.random.magnitude());
                if self.one_in(2) {
                    -magnitude
                } else {
                    magnitude
                }
            }
        }
    }

    pub fn number(&mut self) {
        if self.one_in(14) {
            self.literal();
            return;
        }
        if self.is_odd() {
            self.pick(&[
                "",
                "-",
                "+",
                "0x",
                "0b",
                "0b2",
                "0xg",
                "- 5",
                "1 2",
                "1_0",
                "5f",
                "--",
                "+-",
                "0x 1",
                "'",
                "''",
                "'ab'",
                "\"1\"",
                "1.5",
                "1e3",
                "0o7",
                "$",
                "1+1",
                "99999999999999999999999999",
                "0xFFFFFFFFFFFFFFFFF",
                "-99999999999999999999",
            ]);
            return;
        }
        let value = self.value();
        self.number_of(value);
    }

    /// A number within bounds, in one of its spellings.
    pub fn number_below(&mut self, limit: usize) {
        let value = self.random.below(limit) as i128;
        self.number_of(value);
    }

    pub fn number_of(&mut self, value: i128) {
        let (sign, magnitude) = if value < 0 {
            ("-", -value)
        } else {
            ("", value)
        };
        let digits = match self.random.below(12) {
            0..=1 => format!("0x{magnitude:x}"),
            2 => format!("0X{magnitude:X}"),
            3 => format!("0b{magnitude:b}"),
            4 => format!("0B{magnitude:b}"),
            5 => format!("{}{magnitude}", "0".repeat(1 + self.random.below(30))),
            _ => format!("{magnitude}"),
        };
        match self.random.below(24) {
            // A further sign of the digits' own.
            0 => {
                let (prefix, rest) = match digits.as_bytes() {
                    [b'0', b'x' | b'X' | b'b' | b'B', ..] => digits.split_at(2),
                    _ => ("", digits.as_str()),
                };
                let outer = self.random.pick(&["", "+", "-"]);
                let own = self.random.pick(&["+", "-", sign]);
                self.put(&format!("{outer}{prefix}{own}{rest}"));
            }
            1 => self.put(&format!("+{sign}{digits}")),
            2 => self.put(&format!("-{sign}{digits}")),
            _ => self.put(&format!("{sign}{digits}")),
        }
    }

    pub fn literal(&mut self) {
        self.pick(&[
            "'a'", "'0'", "' '", "'\\n'", "'\\t'", "'\\r'", "'\\0'", "'\\\\'", "'\\''", "'\\\"'",
            "'''", "'\\'", "'~'", "'\t'", "'-'", "'\"'", "'='", "'\\x'", "'ab'", "'", "''", "'  '",
            "'\x7f'",
        ]);
    }

    /// A term of an expression without signs.
    pub fn term(&mut self) {
        match self.random.below(12) {
            0..=1 => self.put("."),
            2..=5 => {
                let value = match self.random.below(8) {
                    0 => self.value().abs(),
                    _ => self.random.below(3000) as i128,
                };
                let text = match self.random.below(6) {
                    0 => format!("0x{value:X}"),
                    1 => format!("0b{value:b}"),
                    2 => format!("0X{value:x}"),
                    _ => format!("{value}"),
                };
                self.put(&text);
            }
            _ => self.known_name(),
        }
    }

    pub fn expression(&mut self) {
        if self.is_odd() {
            self.pick(&[
                "(",
                "1 2",
                "1 +",
                "+",
                "-",
                "a*b",
                "1\x0b+1",
                "1\x0c",
                "5f",
                "0x",
                "0b2",
                "'a'",
                "a b",
                "@",
                "5g",
                "u 5",
                "5 u",
                "u+",
                "1,2",
                ",",
                "a!",
                "\"a\"",
                "1<<2",
                "9223372036854775808",
            ]);
            return;
        }
        for count in 0..1 + self.random.below(4) * self.random.below(2) {
            self.plain_gap();
            if count > 0 {
                self.pick(&["+", "-"]);
                self.plain_gap();
            }
            while self.one_in(8) {
                self.pick(&["-", "+", "- "]);
            }
            self.term();
        }
        self.plain_gap();
        if self.is_odd() {
            self.pick(&["+", " 1", " a", ")", "\x0b", "#"]);
        }
    }
}
