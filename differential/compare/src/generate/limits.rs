//! Sources at every limit and one over, and at all limits at once.

use std::sync::OnceLock;

use super::{edges, Case};
use crate::model::{Lent, EQUATE_SIZE, ITEM_SIZE, LABEL_SIZE};

static CASES: OnceLock<Vec<Case>> = OnceLock::new();

fn cases() -> &'static [Case] {
    CASES.get_or_init(built)
}

pub fn total() -> u64 {
    cases().len() as u64
}

pub fn case(index: u64) -> Case {
    cases()[index as usize].clone()
}

struct Cases(Vec<Case>);

impl Cases {
    fn add(&mut self, text: String, base: u32, lent: Lent) {
        self.0.push(Case {
            text: text.into_bytes(),
            base,
            lent,
            counts: 9,
        });
    }

    /// At full size, at a low and at the highest base.
    fn full(&mut self, text: String) {
        self.add(text.clone(), 0, Lent::FULL);
        self.add(text, 0xFF00_0000, Lent::FULL);
    }
}

/// A short name for each number: letters alone, so that none is a number.
fn name(mut number: usize) -> String {
    let mut name = String::from("n");
    loop {
        name.push((b'a' + (number % 26) as u8) as char);
        number /= 26;
        if number == 0 {
            return name;
        }
    }
}

fn labels(count: usize) -> String {
    (0..count)
        .map(|number| format!("{}:\n", name(number)))
        .collect()
}

/// Each equate is one more than the one below it: as many rounds as equates.
fn chain_up(count: usize) -> String {
    let link = |number| match number + 1 == count {
        true => format!("e{}=5\n", name(number)),
        false => format!("e{}=e{}+1\n", name(number), name(number + 1)),
    };
    (0..count).map(link).collect()
}

/// Each equate is one more than the one above it: one round.
fn chain_down(count: usize) -> String {
    let link = |number| match number {
        0 => format!("e{}=5\n", name(number)),
        _ => format!("e{}=e{}+1\n", name(number), name(number - 1)),
    };
    (0..count).map(link).collect()
}

fn label_words(count: usize) -> String {
    let mut lines = String::new();
    for start in (0..count).step_by(100) {
        let words = vec!["w"; 100.min(count - start)];
        lines.push_str(&format!(".word {}\n", words.join(",")));
    }
    lines
}

/// A line that fills up to so many bytes, all of it a comment.
fn filled(mut text: String, length: usize) -> String {
    text.push('#');
    while text.len() < length {
        text.push('.');
    }
    text
}

const TEXT: usize = 65_536;

fn built() -> Vec<Case> {
    let mut cases = Cases(Vec::new());
    texts(&mut cases);
    data(&mut cases);
    strings(&mut cases);
    bss(&mut cases);
    words(&mut cases);
    tables(&mut cases);
    all_at_once(&mut cases);
    lent(&mut cases);
    bases(&mut cases);
    cases.0.extend(edges::cases());
    cases.0
}

/// Texts of the longest length: one kind of byte throughout, or one long line.
fn texts(cases: &mut Cases) {
    for length in [TEXT - 1, TEXT, TEXT + 1] {
        for byte in [
            "\n", " ", "#", ";", ":", "=", ".", "a", ",", "\0", "\x7f", "'", "\"", "-", "0", "\x0b",
        ] {
            cases.add(byte.repeat(length), 0, Lent::FULL);
        }
        for (before, piece) in [
            ("a=", "1+"),
            ("a=", "-"),
            ("a=1", "-1"),
            ("a=1", " "),
            ("a=b", "+b"),
            (".data\n.byte 1", ",1"),
            (".data\n.word w", ",w"),
            (".data\n.asciz \"", "\""),
            (".data\n.asciz \"", "\\"),
            (".data\n.ascii \"", "\\n"),
            (".data\nx: .ascii \"", "#"),
            ("li a0, ", " 5"),
            ("li a0,5", ","),
            ("push", " "),
            ("x:", " "),
            (".section", "t"),
            (".equ a ", "1 "),
            (".equ a,", "0"),
            ("", "a:\n"),
            ("", "a:"),
            ("", "nop\n"),
        ] {
            let mut text = before.to_string();
            while text.len() + piece.len() <= length {
                text.push_str(piece);
            }
            while text.len() < length {
                text.push('\n');
            }
            cases.add(text, 0, Lent::FULL);
        }
        // The byte above 127 stands last, and 41 comes before it.
        let mut text = "\n".repeat(length).into_bytes();
        text[length - 1] = 0x80;
        cases.0.push(Case {
            text,
            base: 0,
            lent: Lent::FULL,
            counts: 9,
        });
    }
    cases.add("\n".repeat(TEXT + 1), 0xFF00_0001, Lent::FULL);
}

fn data(cases: &mut Cases) {
    for size in [65_535, 65_536, 65_537] {
        cases.full(format!(".data\n.space {size}\n"));
        cases.full(format!(".data\n.zero {size}\nx:\n.bss\ny:\n"));
    }
    for (size, line) in [
        (65_535, ".byte 1"),
        (65_535, ".byte 1,2"),
        (65_536, ".byte 1"),
        (65_536, ".byte x"),
        (65_534, ".half 1"),
        (65_535, ".half 1"),
        (65_532, ".word 1"),
        (65_533, ".word 1"),
        (65_532, "w: .word w"),
        (65_533, "w: .word w"),
        (65_533, ".word ?"),
        (65_528, ".dword 1"),
        (65_529, ".dword 1"),
        (65_535, ".asciz \"\""),
        (65_536, ".asciz \"\""),
        (65_536, ".ascii \"\""),
        (65_534, ".ascii \"ab\""),
        (65_535, ".ascii \"ab\""),
        (65_534, ".ascii \"\\n:\""),
        (65_535, ".ascii \"\\n:\""),
        (65_534, ".asciz \"\\377\""),
        (65_535, ".asciz \"\\377\""),
        (65_536, ".ascii \"\\378\""),
        (65_535, ".align 2"),
        (65_535, ".align 65536"),
        (65_536, ".align 65536"),
        (65_535, ".align 65537"),
        (65_535, ".align 2147483647"),
        (65_536, ".space 0"),
        (65_536, ".space 1"),
        (65_536, ".space -1"),
        (65_536, ".float 1"),
        (65_536, ".align 131072"),
    ] {
        cases.full(format!(".data\n.space {size}\n{line}\nz:\n"));
    }
}

/// One string to the end of the text, or to a byte less or more; and blanks of
/// each kind at each place of a line.
fn strings(cases: &mut Cases) {
    for length in [TEXT - 1, TEXT, TEXT + 1] {
        for piece in ["a", ":", "\\n", "\\\"", "\\\\", "\\8", "\\377", "#;a"] {
            for end in ["\"", "\\t\"", "\\400\"", "\"x"] {
                let mut text = ".data\n.ascii \"".to_string();
                while text.len() + piece.len() + end.len() <= length {
                    text.push_str(piece);
                }
                let left = length - text.len() - end.len();
                cases.add(text + &" ".repeat(left) + end, 0, Lent::FULL);
            }
        }
    }
    for directive in [".ascii", ".asciz", ".string"] {
        for white in ["\t", "\x0b", "\x0c", "\r", " "] {
            for place in 0..5 {
                let mut at = [""; 5];
                at[place] = white;
                let [first, label, colon, name, quote] = at;
                cases.add(
                    format!(".data\n{first}x{label}:{colon}{directive}{name}\":\\n\"{quote}#\""),
                    0,
                    Lent::FULL,
                );
            }
        }
    }
}

fn bss(cases: &mut Cases) {
    for (size, line) in [
        (1_048_575, ".skip 1"),
        (1_048_576, ".skip 0"),
        (1_048_576, ".skip 1"),
        (1_048_576, ".skip -1"),
        (1_048_575, ".align 2"),
        (1_048_575, ".align 1048576"),
        (1_048_575, ".align 1048577"),
        (1_048_576, ".align 2097152"),
        (1_048_576, ".align 2147483647"),
        (1_048_576, ".byte 1"),
        (1_048_577, "x:"),
        (0, ".space 2147483647"),
    ] {
        cases.full(format!(".bss\n.space {size}\n{line}\nz:\n.text\nla a0, z"));
    }
}

fn words(cases: &mut Cases) {
    let strings = |count: usize| "print_str x\n".repeat(count);
    for tail in [
        "",
        "nop\n",
        "la a0, x\n",
        "print a0\n",
        "print a0\nnop\n",
        "la a0, x\nprint a0\n",
        "la a0, x\nprint a0\nnop\n",
    ] {
        // 1,489 times eleven words are 16,379.
        cases.full(format!("x:\n{}{tail}z:\n", strings(1_489)));
    }
    cases.full(strings(1_490));
    // 2,048 items of eight words: both limits at once.
    for (count, tail) in [
        (2_048, ""),
        (2_048, "nop\n"),
        (2_047, "read_byte x\n"),
        (2_047, "print_str x\n"),
    ] {
        cases.full(format!("x:\n{}{tail}z:\n", "random a0\n".repeat(count)));
    }
    // An li by name takes two words, whatever the value: one that is left is not
    // enough.
    for (value, tail) in [
        ("5", "li a0,n\nli a0,n\n"),
        ("5", "print a0\nli a0,n\n"),
        ("99999", "print a0\nli a0,n\n"),
        ("5", "print a0\nli a0,5\nli a0,n\n"),
    ] {
        cases.full(format!("x:\nn={value}\n{}{tail}z:\n", strings(1_489)));
    }
    cases.full(format!("n=5\n{}z:\n", "li a0,n\n".repeat(2_048)));
    cases.full(format!("{}z:\n", "li a0,99999\n".repeat(2_048)));
}

fn tables(cases: &mut Cases) {
    for count in [1_023, 1_024, 1_025] {
        cases.full(labels(count));
        cases.full(format!("{}{}", labels(count), labels(count)));
        cases.full(format!(".bss\n{}.section\n", labels(count)));
        cases.full(format!("w:\n.data\n{}", label_words(count)));
        cases.full(format!(".data\n{}", label_words(count)));
        cases.full(format!("w:\n.data\n{}.word w,?\n", label_words(count)));
    }
    for count in [255, 256, 257] {
        cases.full(chain_up(count));
        cases.full(chain_down(count));
        cases.full(format!("{}li a0,{}", chain_up(count), "ena"));
        let constants: String = (0..count)
            .map(|number| format!("{}=-.\n", name(number)))
            .collect();
        cases.full(constants);
        let shared: String = (0..count).map(|_| "a=b\n".to_string()).collect();
        cases.full(shared);
        let cycle: String = (0..count)
            .map(|number| format!("{}={}\n", name(number), name((number + 1) % count)))
            .collect();
        cases.full(cycle);
        cases.full(format!("{}.equ\n", chain_down(count)));
    }
    for count in [2_047, 2_048, 2_049] {
        cases.full("nop\n".repeat(count));
        cases.full(format!("{}print_str_ln x\n", "nop\n".repeat(count)));
        cases.full(format!("{}push 5\n", "push ra\n".repeat(count)));
    }
}

/// Every limit at once: 65,536 bytes of text, and each table full.
fn all_at_once(cases: &mut Cases) {
    let items = "random a0\n".repeat(2_048);
    let labels = labels(1_023);
    let equates = chain_up(256);
    let data = format!(
        ".data\nw: {}.space {}\n",
        label_words(1_024),
        65_536 - 4_096
    );
    let bss = ".bss\n.space 1048576\n";
    let all = format!("{items}{labels}{equates}{data}{bss}");
    cases.full(filled(all.clone(), TEXT));
    cases.full(filled(all.clone(), TEXT + 1));
    for over in [
        "over:\n",
        "over=1\n",
        ".skip 1\n",
        ".data\n.byte 1\n",
        ".data\n.word w\n",
        ".text\nnop\n",
        ".text\nread_half x\n",
        ".data\n.float 1\n",
    ] {
        cases.full(filled(format!("{all}{over}"), TEXT));
    }
}

/// What is lent is just enough, a byte or a word less, and a record less.
fn lent(cases: &mut Cases) {
    let text = "a: li a0, 5\nb: la a1, a\nn = m\nm = 5\n.data\nc: .word a, b\n.byte 1\nprinted: .asciz \"x\"\n.bss\n.skip 5\n.text\nprint_str c\nnop\n";
    let exact = Lent {
        words: 1 + 2 + 11 + 1,
        data: 8 + 1 + 2,
        labels: 4 * LABEL_SIZE,
        equates: 2 * EQUATE_SIZE,
        items: 4 * ITEM_SIZE,
    };
    let mut variants = vec![exact];
    for part in 0..5 {
        let size = [1, 1, LABEL_SIZE, EQUATE_SIZE, ITEM_SIZE][part];
        for change in [1, size - 1, size, size + 1] {
            let mut less = exact;
            let mut more = exact;
            for (lent, by) in [
                (&mut less, -(change as isize)),
                (&mut more, change as isize),
            ] {
                let field = match part {
                    0 => &mut lent.words,
                    1 => &mut lent.data,
                    2 => &mut lent.labels,
                    3 => &mut lent.equates,
                    _ => &mut lent.items,
                };
                *field = field.saturating_add_signed(by);
            }
            variants.extend([less, more]);
        }
        let mut none = exact;
        match part {
            0 => none.words = 0,
            1 => none.data = 0,
            2 => none.labels = 0,
            3 => none.equates = 0,
            _ => none.items = 0,
        }
        variants.push(none);
    }
    for lent in variants {
        cases.add(text.to_string(), 0, lent);
        cases.add(String::new(), 0, lent);
    }
    // 42 before 47, and both before the next operand's 8.
    for room in [4_095, 4_096, 4_099, 4_100, 4_104] {
        let lent = Lent {
            data: room,
            ..Lent::FULL
        };
        for tail in [
            "",
            ".word w",
            ".word w,?",
            ".word 1,w,?",
            ".word ?",
            ".byte 1",
            ".align 8",
        ] {
            let words = label_words(1_024);
            cases.add(format!("w:\n.data\n{words}{tail}\n"), 0, lent);
        }
    }
    // More than any limit: the limits stay.
    let large = Lent {
        words: 20_000,
        data: 70_000,
        labels: 1_100 * LABEL_SIZE,
        equates: 300 * EQUATE_SIZE,
        items: 2_100 * ITEM_SIZE,
    };
    for count in [1_024, 1_025] {
        cases.add(labels(count), 0, large);
        cases.add(format!("w:\n.data\n{}", label_words(count)), 0, large);
    }
    for count in [256, 257] {
        cases.add(chain_up(count), 0, large);
    }
    for count in [2_048, 2_049] {
        cases.add("random a0\n".repeat(count), 0, large);
    }
    for size in [65_536, 65_537] {
        cases.add(format!(".data\n.space {size}"), 0, large);
    }
}

/// A la of every place near the edges, and 40.
fn bases(cases: &mut Cases) {
    for base in [
        0,
        1,
        2,
        3,
        0x7FE,
        0x7FF,
        0x800,
        0x7FFE_FFFF,
        0x7FFF_E7F0,
        0x7FFF_E7F7,
        0x7FFF_E7F8,
        0x7FFF_EFF7,
        0x7FFF_EFF8,
        0x7FFF_F7F7,
        0x7FFF_F7F8,
        0x7FFF_FFF7,
        0x7FFF_FFF8,
        0x7FFF_FFFF,
        0x8000_0000,
        0xFEFF_FFFF,
        0xFF00_0000,
        0xFF00_0001,
        0xFFFF_EFFF,
        0xFFFF_F000,
        0xFFFF_FFFF,
    ] {
        for text in [
            "la a0, x\nx:",
            "la a0, x\n.data\nx: .word x",
            "read x\n.bss\nx:",
            "la a0, x\nla a1, x\nx: n=.-x\nli a0,n",
            "",
        ] {
            cases.add(text.to_string(), base, Lent::FULL);
        }
    }
}
