//! Sources by a grammar of every line kind, with odd spellings and limits.

use differential::random::Random;

use super::parts::{Writer, NAMES};
use super::{named, rounds};

#[derive(Clone, Copy, PartialEq)]
pub enum Topic {
    Lines,
    Equates,
    Data,
    Pseudos,
}

#[derive(Clone, Copy, PartialEq)]
enum Section {
    Text,
    Data,
    Bss,
}

pub fn text(random: &mut Random, topic: Topic) -> Vec<u8> {
    // A source without anything odd goes through; one with much is refused
    // early, each in its way.
    let odd = [0, 5, 20, 60, 200][random.below(5)];
    let lines = match random.below(16) {
        0 => 30,
        1..=4 => 12,
        _ => 6,
    };
    let lines = 1 + random.below(lines);
    let mut writer = Writer {
        random,
        text: Vec::with_capacity(256),
        odd,
    };
    if topic == Topic::Equates && writer.one_in(2) {
        return rounds::text(writer);
    }
    if topic == Topic::Pseudos && writer.one_in(8) {
        return named::text(writer);
    }
    let mut section = Section::Text;
    if topic == Topic::Data {
        section = writer.begin_section();
    }
    for _ in 0..lines {
        writer.line(topic, &mut section);
    }
    // Names that nothing may have defined, so that more sources go through.
    match writer.random.below(4) {
        0 => {
            for _ in 0..1 + writer.random.below(4) {
                writer.known_name();
                writer.put(":\n");
            }
        }
        1 => {
            for name in &NAMES[..NAMES.len().min(5 + lines)] {
                writer.put(name);
                writer.put(":\n");
            }
        }
        2 => {
            writer.known_name();
            writer.put("=7\n");
        }
        _ => {}
    }
    if writer.one_in(4) && writer.text.last() == Some(&b'\n') {
        writer.text.pop();
    }
    match writer.one_in(24) {
        true => with_cr(&writer.text),
        false => writer.text,
    }
}

/// Lines ended by CR and LF.
fn with_cr(text: &[u8]) -> Vec<u8> {
    let lines: Vec<&[u8]> = text.split(|b| *b == b'\n').collect();
    lines.join(&b"\r\n"[..])
}

impl Writer<'_> {
    fn begin_section(&mut self) -> Section {
        match self.random.below(4) {
            0 => {
                self.put(".bss\n");
                Section::Bss
            }
            _ => {
                self.put(".data\n");
                Section::Data
            }
        }
    }

    fn line(&mut self, topic: Topic, section: &mut Section) {
        if self.one_in(24) {
            self.gap();
        }
        let choice = self.random.below(100);
        match topic {
            Topic::Lines => match choice {
                0..=11 => return self.section_line(section),
                12..=27 => return self.label_line(*section),
                28..=35 => self.ignored(),
                36..=47 => self.equate(),
                48..=50 => return self.text_of_named_lis(section),
                _ => self.own(*section),
            },
            Topic::Equates => match choice {
                0..=3 => return self.section_line(section),
                4..=13 => return self.label_line(*section),
                14..=21 => self.own(*section),
                22..=27 => self.li_of_name(*section),
                28..=31 => return self.text_of_named_lis(section),
                _ => self.equate(),
            },
            Topic::Data => match choice {
                0..=7 => return self.section_line(section),
                8..=19 => return self.label_line(*section),
                20..=23 => self.equate(),
                _ => self.own(*section),
            },
            Topic::Pseudos => match choice {
                0..=3 => return self.section_line(section),
                4..=19 => return self.label_line(*section),
                20..=29 => self.equate(),
                30..=35 => return self.text_of_named_lis(section),
                _ => self.own(*section),
            },
        }
        self.end_line();
    }

    fn section_line(&mut self, section: &mut Section) {
        if self.is_odd() {
            self.pick(&[
                ".section",
                ".section ",
                ".section ,data",
                ".section .rodata.str1.4",
                ".section x",
                ".sectiondatax",
                ".Data",
                ".section .note.GNU-stac",
                ".section note.GNU-stack",
                ".section ..text",
                ".text x",
                ".data:",
                "x: .data",
                ".section\0",
            ]);
            return self.end_line();
        }
        let (next, name) = match self.random.below(3) {
            0 => (Section::Text, self.random.pick(&[".text", "text"])),
            1 => {
                let names = [
                    ".data", "data", ".rodata", "rodata", ".sdata", "sdata", ".srodata", "srodata",
                ];
                (Section::Data, self.random.pick(&names))
            }
            _ => (
                Section::Bss,
                self.random.pick(&[".bss", "bss", ".sbss", "sbss"]),
            ),
        };
        let is_short = [".text", ".data", ".bss"].contains(&name);
        match self.random.below(8) {
            0 => {
                self.put(".section");
                self.gap();
                self.pick(&[".note.GNU-stack", ".note.GNU-stack,\"\",@progbits"]);
                return self.end_line();
            }
            1..=5 if is_short => self.put(name),
            _ => {
                self.put(".section");
                self.gap();
                self.put(name);
                if self.one_in(4) {
                    self.pick(&[", \"aw\"", " x:", ",", "\tx", "\x0by", " ,", ",@progbits"]);
                }
            }
        }
        *section = next;
        self.end_line();
    }

    fn label_line(&mut self, section: Section) {
        self.name();
        self.gap();
        self.put(":");
        self.gap();
        match self.random.below(6) {
            0..=1 => self.own(section),
            2 if self.one_in(3) => self.equate(),
            2 if self.one_in(3) => self.ignored(),
            _ => {}
        }
        self.end_line();
    }

    fn ignored(&mut self) {
        self.pick(&[
            ".globl a",
            ".global x",
            ".globl\ta",
            ".globalx",
            ".globla",
            ".type a, @function",
            ".types",
            ".size a",
            ".sizea",
            ".file \"f\"",
            ".ident \"i\"",
            ".option norvc",
            ".attribute arch",
            ".cfi_startproc",
            ".cfi_",
        ]);
        if self.is_odd() {
            self.put("\n");
            self.pick(&[
                ".globl",
                ".global",
                ".globl ",
                ".cfi",
                ".typ",
                ".global\x0b",
            ]);
        }
    }

    fn equate(&mut self) {
        match self.random.below(10) {
            0..=5 => {
                self.name();
                self.gap();
                self.put("=");
                self.gap();
                self.expression();
            }
            6..=7 => {
                self.pick(&[".equ", ".set", ".equ ", ".set ", ".equ "]);
                self.blank();
                self.name();
                self.gap();
                self.put(",");
                self.gap();
                self.expression();
            }
            8 => {
                self.pick(&[".equ ", ".set ", ".equ", ".equ\t"]);
                self.known_name();
                self.blank();
                self.gap();
                self.expression();
            }
            _ => {
                if self.is_odd() {
                    self.pick(&[
                        ".equ",
                        ".set",
                        ".equ a",
                        ".equ ,5",
                        ".set a,",
                        ".equ a,  ",
                        "= 5",
                        "a =",
                        "=",
                        ".x = 5",
                        ".equa,5",
                        ".set5 5",
                        "a == b",
                        "a = = 1",
                        ".equ a b c",
                        ".equ a 1,2",
                        ". = 5",
                        ".equ ., 9",
                    ]);
                } else {
                    self.known_name();
                    self.put(" = ");
                    self.term();
                }
            }
        }
    }

    fn own(&mut self, section: Section) {
        match section {
            Section::Text => self.item(),
            Section::Data => self.data(),
            Section::Bss => self.bss(),
        }
    }

    // ---------- the text section ----------

    fn text_of_named_lis(&mut self, section: &mut Section) {
        if *section != Section::Text {
            self.put(".text\n");
            *section = Section::Text;
        }
        self.named_lis();
    }

    fn li_of_name(&mut self, section: Section) {
        if section == Section::Text {
            self.put("li ");
            self.register();
            self.put(", ");
            self.known_name();
        } else {
            self.own(section);
        }
    }

    fn item(&mut self) {
        if self.is_odd() {
            self.pick(&[
                "push",
                "pop",
                "la",
                "li",
                "li\ta0, 5",
                "push\tra",
                "printx",
                "LI a0, 5",
                "Print a0",
                "print\ta0",
                "li,",
                "print_str_ln x",
                "printStrLn",
                "read_half x",
                "readHalf a",
                "read_word",
                "readWord x",
                "random_bytes x, 4",
                "randomBytes",
                "randomBytes x,4",
                "random_bytes",
                "print_str_lnx",
                "random_byte",
                "unknown a0",
                "addi a0",
                ".word 1",
                ".space 4",
                "\"s\"",
                "=",
                "read_byte",
                "readByte",
                "random",
                "read",
                "print",
                "print_str",
                "printStr",
                "printString",
                "subi a0, a0, -2147483648",
                "beq a0, a1, 1",
                "j u",
            ]);
            return;
        }
        match self.random.below(16) {
            0..=3 => self.ordinary(),
            4..=8 => {
                self.put("li ");
                self.gap();
                self.register();
                self.gap();
                self.put(",");
                self.gap();
                match self.random.below(5) {
                    0..=1 => self.known_name(),
                    2 if self.is_odd() => self.name(),
                    _ => self.number(),
                }
            }
            9..=10 => {
                self.put("la ");
                self.gap();
                self.register();
                self.gap();
                self.put(",");
                self.gap();
                self.name();
            }
            11 => {
                self.pick(&["push ", "pop "]);
                self.gap();
                self.register();
            }
            12 => {
                self.pick(&["print ", "random "]);
                self.register();
            }
            _ => {
                self.pick(&[
                    "print_str ",
                    "printStr ",
                    "printString ",
                    "read ",
                    "read_byte ",
                    "readByte ",
                ]);
                self.gap();
                self.name();
            }
        }
        self.operand_oddities();
    }

    fn operand_oddities(&mut self) {
        if self.is_odd() {
            self.pick(&[",", ", ,", ", a0", " a0", ",,5", " ,", ", x", " x"]);
        } else if self.one_in(30) {
            self.pick(&[",", " , ,", ",\t"]);
        }
    }

    fn ordinary(&mut self) {
        self.pick(&[
            "nop",
            "ret",
            "ecall",
            "add a0, a1, a2",
            "addi sp, sp, -16",
            "lw a0, 0(sp)",
            "sw ra, 4(sp)",
            "sub t0, t1, t2",
            "slli a0, a0, 3",
            "lui a0, 1",
            "mv a0, a1",
            "NOP",
            "jr ra",
            "mul a0, a1, a2",
            "nop\t",
            "beq a0, a1, 8",
            "jal 16",
            "halt",
            "seqz a0, a1",
            "fence",
        ]);
    }

    // ---------- data and bss ----------

    fn data(&mut self) {
        if self.is_odd() {
            self.pick(&[
                ".byte",
                ".half ",
                ".word",
                ".dword",
                ".align",
                ".space",
                ".zero",
                ".asciz",
                ".ascii x",
                ".string \"",
                ".float 1",
                ".float",
                ".floatx",
                ".skip 1",
                ".align 0",
                ".align -1",
                ".space -1",
                ".zero 1,2",
                ".words 5",
                ".bytes 1",
                ".byte 1,",
                ".byte ,1",
                ".byte 256",
                ".byte -1",
                ".half 65536",
                ".half -1",
                ".word 4294967296",
                ".word a b",
                ".word 5x",
                ".word a$",
                ".word ,",
                ".byte 1,,2",
                ".dword a",
                ".dword 9223372036854775808",
                "nop",
                "li a0, 5",
                ".text",
                ".Byte 1",
                ".asciz \"a\" x",
                ".string 'a'",
                ".space 65537",
                ".zero 2147483647",
                ".align 65537",
                ".align 2147483647",
                ".string \"a:b\"",
                ".quad 1",
                ".asci \"a\"",
                ".asciz\"a;b\"",
                "byte 1",
            ]);
            return;
        }
        match self.random.below(14) {
            0..=2 => self.numbers(".byte", 256),
            3 => self.numbers(".half", 65_536),
            4..=6 => self.words(),
            7 => self.numbers(".dword", usize::MAX / 4),
            8..=9 => {
                self.pick(&[
                    ".asciz",
                    ".string",
                    ".ascii",
                    ".asciz ",
                    ".string\t",
                    ".ascii ",
                ]);
                self.gap();
                self.pick(&[
                    "\"\"",
                    "\"a\"",
                    "\"hello\"",
                    "\"a\\n\"",
                    "\" \"",
                    "\"\"\"",
                    "\"a,b\"",
                    "\"a\",\"b\"",
                    "\"'\"",
                    "\"a b\"",
                    "\"\t\"",
                    "\"=\"",
                    "\"%\"",
                    "\"\\\"",
                    "\"a.b.c.d.e.f\"",
                ]);
                self.gap();
            }
            10 => {
                self.pick(&[".space ", ".zero ", ".space", ".zero\t"]);
                self.gap();
                self.number_below(40);
            }
            _ => {
                self.pick(&[".align ", ".align", ".align\t"]);
                let places = [1, 2, 3, 4, 5, 6, 7, 8, 12, 16, 24, 32];
                let place = places[self.random.below(places.len())];
                self.number_of(place);
            }
        }
    }

    fn numbers(&mut self, directive: &str, limit: usize) {
        self.put(directive);
        self.blank();
        for count in 0..1 + self.random.below(4) {
            if count > 0 {
                self.gap();
                self.put(",");
            }
            self.gap();
            match self.random.below(20) {
                0 => self.number(),
                1 => self.pick(&["'a'", "'\\n'", "' '", "'''", "'\\0'"]),
                _ => self.number_below(limit),
            }
        }
    }

    fn words(&mut self) {
        self.put(".word");
        self.blank();
        for count in 0..1 + self.random.below(4) {
            if count > 0 {
                self.gap();
                self.put(",");
            }
            self.gap();
            match self.random.below(6) {
                0..=1 => self.known_name(),
                2 if self.is_odd() => self.name(),
                3 => {
                    let value = self.random.next() as u32;
                    self.number_of(i128::from(value));
                }
                4 => self.number(),
                _ => self.number_below(1000),
            }
        }
    }

    fn bss(&mut self) {
        if self.is_odd() {
            self.pick(&[
                ".byte 1",
                ".half",
                ".word x",
                ".dword 1",
                ".float 1",
                ".ascii",
                ".asciz \"a\"",
                ".string \"a\"",
                ".bytes",
                ".skip",
                ".skip -1",
                ".align 0",
                ".align x",
                ".space 1,2",
                ".comm x",
                "nop",
                ".skipx",
                ".space 1048577",
                ".zero 4294967295",
                ".align 2147483647",
                ".align 1048577",
                ".alig 4",
                ".skip 'a'",
                ".org 5",
            ]);
            return;
        }
        match self.random.below(3) {
            0..=1 => {
                self.pick(&[".space ", ".zero ", ".skip ", ".skip", ".space\t"]);
                self.number_below(100);
            }
            _ => {
                self.pick(&[".align ", ".align"]);
                let places = [1, 2, 3, 4, 5, 8, 10, 16, 64];
                let place = places[self.random.below(places.len())];
                self.number_of(place);
            }
        }
    }
}
