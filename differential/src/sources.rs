//! Small sources made by topic: each builder puts every choice for one thing
//! into a few lines that show what came of it.

use std::collections::BTreeSet;

use crate::random::Random;

/// What trimming takes away; LF parts lines, so it stands apart.
const WHITE: [&str; 5] = ["\t", "\x0B", "\x0C", "\r", " "];

/// The lines that begin each section.
const SECTIONS: [&str; 3] = [".text", ".data", ".bss"];

/// Sources without duplicates: the shorter first, then by bytes and base.
pub struct Sources {
    found: BTreeSet<(usize, String, u32)>,
}

/// What puts sources of one kind among the others.
pub type Builder = fn(&mut Sources);

pub const BUILDERS: [Builder; 11] = [
    add_paper,
    add_lines,
    add_sections,
    add_directives,
    add_labels,
    add_equates,
    add_expressions,
    add_data,
    add_items,
    add_errors,
    add_random,
];

/// Further builders, whose sources stand behind those of the others.
pub const FURTHER: [Builder; 3] = [add_name_edges, add_good_pseudos, add_symbols];

/// The builder of the sources whose sums go beyond 64 signed bits.
pub const BEYOND: Builder = add_beyond;

/// The sources of some builders, in order.
pub fn built(builders: &[Builder]) -> Vec<(String, u32)> {
    let mut sources = Sources {
        found: BTreeSet::new(),
    };
    for builder in builders {
        builder(&mut sources);
    }
    let found = sources.found.into_iter();
    found.map(|(_, text, base)| (text, base)).collect()
}

impl Sources {
    /// A source for base 0.
    fn add(&mut self, text: &str) {
        self.add_at(text, 0);
    }

    fn add_at(&mut self, text: &str, base: u32) {
        assert!(text.len() < 600, "a source for the list is small");
        self.found.insert((text.len(), text.to_string(), base));
    }

    /// Lines, each ended by LF.
    fn add_lines(&mut self, lines: &[&str]) {
        self.add(&joined(lines));
    }
}

fn joined(lines: &[&str]) -> String {
    lines.iter().map(|line| format!("{line}\n")).collect()
}

/// Every order of the numbers below `count`.
fn orders(count: usize) -> Vec<Vec<usize>> {
    if count == 0 {
        return vec![Vec::new()];
    }
    let mut all = Vec::new();
    for order in orders(count - 1) {
        for place in 0..count {
            let mut longer = order.clone();
            longer.insert(place, count - 1);
            all.push(longer);
        }
    }
    all
}

// ---------- document 01 ----------

/// The twelve cases of document 01 and the bench program's two.
fn add_paper(sources: &mut Sources) {
    let cases = [
        "",
        "li a0, 2047",
        "li a0, 2048",
        "li a0, 0x7FFFF800",
        "li a0, 4294967295",
        "n = 4294967295\nli a0, n",
        "push ra",
        "pop ra",
        ".data\n.byte --5",
        ".data\n.byte 256",
        ".data\n.dword -9223372036854775808",
        ".data\n.dword +-9223372036854775808",
        "a = b+1\nb = c+1\nc = 5",
        "a = b\nb = a",
        ".data\nt: .byte 1\nt: .byte 2\n.word t",
    ];
    for case in cases {
        sources.add(case);
        sources.add(&format!("{case}\n"));
    }
    sources.add("a = b+1\nb = c+1\nc = 5\nli a0, a\nli a1, b\nli a2, c\n");
}

// ---------- lines ----------

fn add_lines(sources: &mut Sources) {
    add_line_ends(sources);
    add_white(sources);
    add_comments(sources);
}

/// Line ends of every kind, the last one missing, and empty lines.
fn add_line_ends(sources: &mut Sources) {
    let programs: [&[&str]; 4] = [
        &["nop", "x: li a0, 5", ".data", "y: .byte 1"],
        &["", "", "x:", "", "la a0, x"],
        &[".data", ".asciz \"a\"", ".byte z"],
        &["n = 5", "li a0, n", "li a0, u"],
    ];
    for lines in programs {
        for end in [
            "\n", "\r\n", "\n\r", "\r", "\n\n", "\n \t\n", "\x0B\n", "\n\x0C",
        ] {
            sources.add(&lines.join(end));
            sources.add(&(lines.join(end) + end));
            sources.add(&(end.to_string() + &lines.join(end)));
        }
    }
    for text in ["\n", "\r", "\r\n", " ", "\t\n\x0B\x0C", ";", "#", "\0"] {
        sources.add(text);
    }
}

/// White space of every kind, at every place of a line (`@`).
fn add_white(sources: &mut Sources) {
    let templates = [
        "@li a0, 5",
        "li@a0, 5",
        "li @a0, 5",
        "li a0@, 5",
        "li a0,@5",
        "li a0, 5@",
        "li a0, '@'",
        "li a0, -@5",
        "x@:\nla a0, x",
        "x:@nop",
        "@x: la a0,@x@",
        "x@y: la a0, x y",
        "x y: la a0, x@y",
        "x@y: la a0, x@y",
        "x@y: print_str x@y",
        "n@= 5\nli a0, n",
        "n =@5\nli a0, n",
        "n = 5@+ 1\nli a0, n",
        "n = 5 +@1@\nli a0, n",
        "n@m = 5\nli a0, n@m",
        "@.equ n, 5\nli a0, n",
        ".equ@n, 5\nli a0, n",
        ".equ n@, 5\nli a0, n",
        ".equ n,@5@\nli a0, n",
        ".equ n, 5@+1\nli a0, n",
        ".equ n@5\nli a0, n",
        ".equ n 5@+1\nli a0, n",
        ".equ n 5+@@1\nli a0, n",
        ".equ n@m, 5\nli a0, n@m",
        ".set n@m 5\nli a0, n",
        "@.data@\n.byte 1",
        ".section@data\n.byte 1",
        ".section data@x\n.byte 1",
        ".section@",
        ".globl@x",
        ".globl@",
        ".data\n@.byte@1",
        ".data\n.byte 1@,2",
        ".data\n.byte 1,@2@",
        ".data\n.byte 1,@",
        ".data\n.byte '@'",
        ".data\nx:@.half@1@",
        ".data\n.word@x@,@x\nx:",
        ".data\n.dword@1@",
        ".data\n.align@4@\n.byte 1",
        ".data\n.asciz@\"a\"@",
        ".data\n.ascii \"a@b\"",
        ".data\n.string \"@\"",
        ".data\n.space@3@\n.byte 1",
        ".bss\n.skip@3@\nx:",
        "push@ra",
        "push @ra@",
        "print@a0",
        "print @a0",
        "random@a0",
        "print_str@x\nx:",
        "read @x@\nx:",
    ];
    let mut kinds = WHITE.to_vec();
    kinds.extend(["", "\n", "  ", " \t", "\t ", "\x1F", "\0"]);
    for template in templates {
        for white in &kinds {
            sources.add(&template.replace('@', white));
        }
    }
}

/// Comments at every place (`@`); quotes protect nothing.
fn add_comments(sources: &mut Sources) {
    let templates = [
        "@nop",
        "no@p",
        "nop@x\nnop",
        "x@: nop",
        "x:@nop\nla a0, x",
        "li a0, '@'",
        "li a0,@5",
        "li a0, 5@6",
        "n =@5",
        "n = 5@+1\nli a0, n",
        ".equ n@, 5",
        ".section@data",
        ".globl@x",
        ".data\n.byte 1,@2",
        ".data\n.byte 1@,2",
        ".data\n.byte '@'",
        ".data\n.asciz \"a@b\"",
        ".data\n.asciz \"a\"@b\"",
        ".data@\n.byte 1",
    ];
    for template in templates {
        for mark in [";", "#", ";#", "#;", "#!", "##!", " ; x # ", " # x ; "] {
            sources.add(&template.replace('@', mark));
        }
    }
}

// ---------- sections ----------

/// A place in each section, so that a label's address tells where it is.
const PLACES: &str = "nop\n.bss\n.space 2\n.data\n.byte 1\n";

fn add_sections(sources: &mut Sources) {
    let names = [
        "text",
        "data",
        "rodata",
        "sdata",
        "srodata",
        "bss",
        "sbss",
        "note.GNU-stack",
        "",
        "Text",
        "datas",
        "dat",
        "tex",
        "init",
        "data.x",
        ".data",
        "bss.",
        "\"data\"",
    ];
    for name in names {
        for dot in ["", "."] {
            add_section_line(sources, &format!(".section {dot}{name}"));
        }
        for line in [
            format!(".section{name}"),
            format!(".section.{name}"),
            format!(".section\t.{name} x"),
            format!(".section .{name},\"aw\",@progbits"),
            format!(".section {name} , x"),
            format!(".section ,{name}"),
            format!(".section .{name}:"),
            format!(".sections {name}"),
        ] {
            add_section_line(sources, &line);
        }
    }
    let odd = [
        ".text",
        ".data",
        ".bss",
        ".text ",
        ".dataX",
        ".databyte",
        ".data .byte 1",
        ".data:",
        ".data: .byte 1",
        ".text: nop",
        ".bss,",
        ".Data",
        "data",
        ".rodata",
        ".section",
        ".section ",
        ".section,",
        ".section:",
        "x: .data",
        "x: .text",
        "x: .bss",
        "x: .section data",
        "x:.section .bss",
        ".section data y:",
        ".section y: data",
        ". data",
    ];
    for line in odd {
        add_section_line(sources, line);
    }
}

/// A section line in each section, and a label after it.
fn add_section_line(sources: &mut Sources, line: &str) {
    sources.add(&format!("{PLACES}{line}\nx:\n"));
    for section in [".text", ".bss"] {
        sources.add(&format!("{PLACES}{section}\n{line}\nx: n = .\n"));
    }
}

// ---------- directives ----------

const DIRECTIVES: [&str; 24] = [
    ".align",
    ".byte",
    ".half",
    ".word",
    ".dword",
    ".float",
    ".asciz",
    ".string",
    ".ascii",
    ".space",
    ".zero",
    ".skip",
    ".globl",
    ".global",
    ".type",
    ".size",
    ".file",
    ".ident",
    ".option",
    ".attribute",
    ".cfi_",
    ".equ",
    ".set",
    ".org",
];

/// What may follow a directive's name.
const AFTER: [&str; 17] = [
    "", " 4", "4", "s", "s 4", "\t4", ",4", " ,4", " 4,", " 4,5", " x", " \"a\"", "\"a\"", " = 4",
    " x, 4", "x 4", " x=4",
];

/// Each directive in each section with everything after it; with a label
/// before it, and a label after it that shows its size.
fn add_directives(sources: &mut Sources) {
    for directive in DIRECTIVES {
        for after in AFTER {
            for section in SECTIONS {
                sources.add(&format!("{section}\n{directive}{after}\ny:\n"));
            }
        }
        for section in SECTIONS {
            let before = if section == ".text" {
                "nop"
            } else {
                ".space 1"
            };
            sources.add_lines(&[section, before, &format!("x: {directive} 4"), "y:"]);
            sources.add_lines(&[section, &format!("{directive}: {directive} 4"), "y:"]);
            sources.add_lines(&[section, &format!("x:{directive} y, 4"), "y:"]);
        }
    }
    let items = [
        "nop", "li a0, 5", "print a0", "x:", ":", ".", "..", "=", "a", "5", "\"", "'", "%",
    ];
    for (item, section) in items.iter().flat_map(|i| SECTIONS.map(|s| (i, s))) {
        sources.add_lines(&[section, item]);
        sources.add_lines(&[section, "y:", &format!("x: {item}"), "z:"]);
    }
}

// ---------- labels ----------

const LABELS: [&str; 30] = [
    "", "x", "a b", "a  b", "a\tb", "1", "5x", ".L0", "a.b", "$a", "_", ".", "..", ".5", "a@",
    "a,b", "a=b", "a = 5", "\"a\"", "'a'", "%", "-x", "x+1", "a0", "x5", "zero", "li a0, 5",
    ".byte 1", ".globl x", "nop",
];

fn add_labels(sources: &mut Sources) {
    for label in LABELS {
        for after in [
            "",
            " nop",
            "nop",
            ":",
            ": nop",
            " y: nop",
            " n = 5",
            " .globl g",
        ] {
            sources.add(&format!("nop\n{label}:{after}\nla a0, {label}\n"));
        }
        for after in [
            "",
            " .byte 1",
            ".byte 1",
            ": .byte 1",
            " n = 5",
            " .asciz \"b:c\"",
        ] {
            sources.add(&format!(".data\n{label} :{after}\n.word {label}\n"));
        }
        sources.add(&format!("n = {label}\nli a0, n\n.bss\n{label}:\n"));
        for pseudo in ["print_str", "read", "read_byte"] {
            sources.add(&format!("{label}: {pseudo} {label}\n"));
        }
        sources.add(&format!(
            ".data\n.byte 7\n.word {label}\n.bss\n.space 5\n{label}:\n"
        ));
        sources.add(&format!("nop\n{label}:\n.data\n.word {label},{label}\n"));
    }
    add_duplicate_labels(sources);
    let texts = [
        ".data\n.asciz \"a:b\"",
        ".data\n.asciz \"a:.byte 1",
        ".data\n.byte ':'",
        ".data\nx: .byte ':'",
        ".data\nx: .asciz \":\"",
        "li a0, ':'",
        "x: li a0, ':'",
        "a:b:c: nop",
        "a:b:c:",
        "::",
        "a :: nop",
        ":nop",
        ".equ n:, 5",
        ".equ n, 5:",
        "n = 5: nop",
        "n: = 5",
        ".globl:",
        ".globl: nop",
        "x: .globl",
        "x: .equ",
        "x: .equ n",
        "x: .equ x, 5",
        "x: x = 5",
        "x: y = x\nli a0, y",
        "\t: \tnop",
    ];
    for text in texts {
        sources.add(text);
        sources.add(&format!("nop\n\n{text}\n"));
    }
}

/// One name defined twice, in every two sections, and every use of it.
fn add_duplicate_labels(sources: &mut Sources) {
    for first in SECTIONS {
        for second in SECTIONS {
            let text = format!(
                "la a0, x\nn = x\nli a1, n\n.bss\n.space 3\n{first}\nx:\n.data\n.word x\n{second}\nx:\n"
            );
            sources.add(&text);
            sources.add_at(&text, 0x1000);
            sources.add_lines(&[first, "x: y: :", second, "y: :", ".data", ".word y,x"]);
        }
    }
}

// ---------- equates ----------

fn add_equates(sources: &mut Sources) {
    add_equate_lines(sources);
    add_assignments(sources);
    add_dots(sources);
    add_chains(sources);
    add_stuck(sources);
    add_shared_names(sources);
    add_round_orders(sources);
    add_limits(sources);
}

fn add_equate_lines(sources: &mut Sources) {
    let parts = [
        " n, 5",
        " n 5",
        " n ,5",
        "n,5",
        "n 5",
        " , 5",
        ",5",
        " n,",
        " n",
        "",
        " ,",
        " , ,",
        " n, ,",
        " n,,5",
        " n 5,6",
        " n 5,",
        " n m, 5",
        " n\tm, 5",
        " n  m, 5",
        " n  5 + 1",
        " n, 5 6",
        " n 5 6",
        " n 5 +",
        " n = 5",
        " n, = 5",
        "= n, 5",
        " n =, 5",
        " ., 5",
        " 5, 6",
        " 'a', 6",
        " .x, 5",
        " n.m, 5",
        " $n, 5",
        " -n, 5",
        " n+m, 5",
        " (n), 5",
        " \"n\", 5",
        " n, \"5\"",
        " n, '5'",
        " n '5'",
        " n, n",
        " n n",
        " a0, 5",
        "s n, 5",
        "iv n, 5",
        " n\t,\t5",
        " n\x0B5",
        " n\x0C5+\x0B1",
        " n, 5\x0B",
        " n, 5\x0B+1",
        " n 5\x0B+1",
        " n , 5 , + , 1 ,",
        " n, -1",
    ];
    let uses = [
        "n", "n m", "n 5", "5", ".", "'a'", "n.m", "-n", "n+m", "n =", "= n", "s n",
    ];
    for part in parts {
        for directive in [".equ", ".set"] {
            sources.add(&format!("nop\n{directive}{part}\nli a0, n\n"));
        }
        sources.add(&format!(".data\nx:.equ{part}\n"));
        sources.add(&format!(".bss\n.set{part}\n.space 1\n"));
        for name in uses {
            if part.contains(name.trim_matches(['=', ' '])) {
                sources.add(&format!(".equ{part}\nli a0, {name}\n"));
            }
        }
    }
}

fn add_assignments(sources: &mut Sources) {
    let lines = [
        "n = 5",
        "n=5",
        "= 5",
        "=",
        "n =",
        "n=",
        " = ",
        "==",
        "n == 5",
        "n = m = 5",
        "n = = 5",
        ".n = 5",
        ". = 5",
        "x: n = 5",
        "x: = 5",
        "x: n =",
        "x: .n = 5",
        "n m = 5",
        "n\tm = 5",
        "5 = 6",
        "'a' = 6",
        "'='",
        "li a0, n = 5",
        "li a0, '='",
        "li = 5",
        "print = 5",
        "print_str x = 5",
        "nop = 5",
        "a0 = 5",
        ".word = 5",
        ".byte '='",
        ".asciz \"a=b\"",
        ".space = 4",
        "n, = 5",
        ",n = 5",
        "n+1 = 5",
        "(n) = 5",
        "\"n\" = 5",
        "n = \"5\"",
        "random =",
        "read_word = 5",
        "random_bytes n = 5",
        "n = ,",
        "n = ,5,",
        "n ,= 5",
    ];
    for line in lines {
        for section in SECTIONS {
            sources.add_lines(&[section, line, "y:"]);
        }
        sources.add_lines(&["nop", line, "li a0, n"]);
    }
    for name in [
        ".",
        "0x5",
        "-1",
        "n m",
        "5",
        "'a'",
        "li",
        "li a0, n",
        "print",
        "n+1",
        "(n)",
        "\"n\"",
        "n,",
        "'",
        "4294967296",
        "4294967295",
        "-2147483649",
        "2048",
    ] {
        sources.add_lines(&[&format!("{name} = 77"), &format!("li a0, {name}"), "x:"]);
        let equate = format!(".equ {name}, 4097");
        sources.add_lines(&[
            &equate,
            &format!("li a0, {name}"),
            &format!("n = {name}"),
            "li a1, n",
        ]);
        sources.add_lines(&[&equate, &format!("la a0, {name}")]);
        sources.add_lines(&[&equate, ".data", &format!(".word {name}")]);
    }
}

/// `.` in every section, before and after bytes and items.
fn add_dots(sources: &mut Sources) {
    for section in SECTIONS {
        let step = if section == ".text" {
            "push ra"
        } else {
            ".space 3"
        };
        for sum in [
            ".",
            ". - x",
            "x - .",
            ". + . - x",
            "-.",
            ".-.",
            "y - .",
            ". + y",
        ] {
            for base in [0, 4, 0x1000, 1] {
                let text = joined(&[
                    ".data",
                    ".byte 9",
                    section,
                    "x:",
                    step,
                    &format!("n = {sum}"),
                    step,
                    &format!("y: .equ m, {sum}"),
                    ".text",
                    "li a0, n",
                    "li a1, m",
                ]);
                sources.add_at(&text, base);
            }
        }
    }
    // Of a small equate's li the Rust emits fewer words than it reserves.
    sources.add("n = 5\nli a0, n\nx: li a1, n\ny = .\nli a2, y\nla a3, x\n");
}

/// Chains of equates, each one more than the next, in every order; the li's
/// show the values.
fn add_chains(sources: &mut Sources) {
    for count in 1..=4 {
        for order in orders(count) {
            add_chain(sources, &order, "5");
            add_chain(sources, &order, "x");
            add_chain(sources, &order, "u");
        }
    }
    for count in 5..=8 {
        let up: Vec<usize> = (0..count).collect();
        let down: Vec<usize> = (0..count).rev().collect();
        let odd_first: Vec<usize> = (0..count).map(|n| n * 2 % (count | 1)).collect();
        let split: Vec<usize> = (0..count).map(|n| (n + count / 2) % count).collect();
        for mut order in [up, down, odd_first, split] {
            order.retain(|n| *n < count);
            order.dedup();
            add_chain(sources, &order, "5");
        }
    }
}

/// The equates of a chain in the given order; the last one is the end.
fn add_chain(sources: &mut Sources, order: &[usize], end: &str) {
    let last = order.iter().max().copied().unwrap_or(0);
    let mut lines = vec!["x: nop".to_string()];
    for &place in order {
        lines.push(match place == last {
            true => format!("e{place} = {end}"),
            false => format!("e{place} = e{} + 1", place + 1),
        });
    }
    let uses = order.iter().map(|place| format!("li a0, e{place}"));
    lines.extend(uses);
    sources.add(&(lines.join("\n") + "\n"));
}

/// Equates that never get a value, among some that do.
fn add_stuck(sources: &mut Sources) {
    let groups: [&[&str]; 16] = [
        &["a = a"],
        &["a = a + 1 - a"],
        &["a = b", "b = a"],
        &["a = b", "b = c", "c = a"],
        &["a = b", "b = c", "c = b"],
        &["a = b + u", "b = 5"],
        &["a = u + b", "b = a"],
        &["a = u"],
        &["a = 5 - u"],
        &["a = b", "b = u"],
        &["a = b", "b = c", "c = u"],
        &["a = x", "b = c"],
        &["a = n", "b = k", "k = b"],
        &["a = .x"],
        &["a = b 5", "b = c", "c = u"],
        &["a = b", "b = b 5"],
    ];
    for group in groups {
        for order in orders(group.len()) {
            let lines: Vec<&str> = order.iter().map(|place| group[*place]).collect();
            let group = lines.join("\n");
            sources.add(&group);
            sources.add(&format!("x: nop\n\nn = 5\n{group}\nm = n\n"));
            sources.add(&format!("m = n\n{group}\nn = k\nk = x\nx:\n"));
        }
    }
}

/// One name for two equates, or for an equate and a label: which line is
/// named, and what comes before it.
fn add_shared_names(sources: &mut Sources) {
    let values = ["5", "6", "u", "b", "a", "(", "b 5", "b +"];
    for first in values {
        for second in values {
            let lines = [format!("a = {first}"), format!("a = {second}")];
            sources.add(&format!("{}\n{}\n", lines[0], lines[1]));
            sources.add(&format!("{}\nb = 7\n{}\n", lines[0], lines[1]));
            sources.add(&format!("{}\n{}\nb = 7\n", lines[0], lines[1]));
        }
    }
    for value in values {
        for section in SECTIONS {
            sources.add(&format!("b = 1\na = {value}\n{section}\na:\n"));
            sources.add(&format!("a:\na = {value}\nb = a\n{section}\nc = (\n"));
        }
        sources.add(&format!("a = c\nb = {value}\nc = 1\nb = 2\na:\n"));
        sources.add(&format!("c = {value}\nx = 1\nx:\nc = 2\n"));
    }
    sources.add("a = 1\na = 2\na = 3\n");
    sources.add("a = b\na = c\nb = 1\nc = 1\n");
    sources.add("a = b\na = c\nc = 1\nb = 1\n");
    sources.add("a b = 1\na  b = 2\nli a0, a b\n");
    sources.add("a b = 1\na b = 2\n");
}

/// Groups in which the line that is refused depends on the round in which
/// each value is found, in every order, with and without a label x.
fn add_round_orders(sources: &mut Sources) {
    let groups: [&[&str]; 7] = [
        &["a = 5", "b = a 5", "c = ("],
        &["a = 5", "b = a +", "c = u", "d = b"],
        &["a = b", "b = c", "c = 5", "a = 6"],
        &["a = b", "b = 5", "b = c", "c = 6"],
        &["a = b 5", "b = c", "c = 5", "d = a"],
        &["x = a", "a = b", "b = 5", "b = 6"],
        &["a = x", "b = a x", "x = b", "c = u ("],
    ];
    for group in groups {
        for order in orders(group.len()) {
            let lines: Vec<&str> = order.iter().map(|place| group[*place]).collect();
            sources.add_lines(&lines);
            sources.add(&format!("{}\nx:\n", lines.join("\n")));
        }
    }
}

/// Values at the limits of 64 bits, in steps that stay inside them or leave
/// them; the li shows a value through a small difference.
fn add_limits(sources: &mut Sources) {
    let least = "l = -9223372036854775807 - 1";
    let most = "g = 9223372036854775807";
    let steps = [
        "l",
        "+l",
        "--l",
        "-l",
        "0 + l",
        "0 - l",
        "0 - -l",
        "0 + -l",
        "0 --- l",
        "l + 1",
        "l - 1",
        "l + g",
        "g + l",
        "g - l",
        "-g",
        "-g - 1",
        "-g - 2",
        "g + 0",
        "g + 1",
        "g - 1 + 1",
        "g + 1 - 1",
        "l + g + g",
        "g + g + l",
        "l - l",
        "l + l",
        "-1 - l",
        "u - l + l",
        "l - 1 + u",
        "l - 1 +",
        "l - 1 (",
    ];
    for step in steps {
        sources.add_lines(&[least, most, &format!("n = {step}")]);
        sources.add_lines(&[&format!("n = {step}"), most, "m = n + 3 - 3", least]);
        for near in ["l", "g"] {
            let last = format!("d = n - {near}");
            sources.add_lines(&[least, most, &format!("n = {step}"), &last, "li a0, d"]);
        }
    }
}

// ---------- symbols ----------

/// Sources for the symbols' records: what they show is each value, its round
/// and the evaluations, or the line that is refused.
fn add_symbols(sources: &mut Sources) {
    add_long_chains(sources);
    add_waiting(sources);
    add_cycles(sources);
    add_undefined(sources);
    add_named_twice(sources);
    add_edges(sources);
    add_heres(sources);
    add_later_labels(sources);
    add_parted(sources);
    add_names(sources);
    add_malformed(sources);
    add_words_first(sources);
}

/// Each equate one more than the one above it, than the one below it, and
/// than the one two below.
fn add_long_chains(sources: &mut Sources) {
    for count in [2, 3, 5, 9, 16, 33] {
        let above = |k: usize| k.checked_sub(1);
        let below = |k: usize| (k + 1 < count).then_some(k + 1);
        let two_below = |k: usize| (k + 2 < count).then_some(k + 2);
        sources.add(&chain(count, above));
        sources.add(&chain(count, below));
        sources.add(&chain(count, two_below));
    }
}

/// So many equates, each one more than another; 7 where there is no other.
fn chain(count: usize, other: impl Fn(usize) -> Option<usize>) -> String {
    let line = |k| match other(k) {
        Some(other) => format!("e{k} = e{other} + 1\n"),
        None => format!("e{k} = 7\n"),
    };
    (0..count).map(line).collect()
}

/// Chains as long as the limit of equates.
pub fn long_chains() -> Vec<String> {
    let count = 256;
    vec![
        chain(count, |k| k.checked_sub(1)),
        chain(count, |k| (k + 1 < count).then_some(k + 1)),
        chain(count, |k| (k + 16 < count).then_some(k + 16)),
    ]
}

/// An equate that waits at one term after the other, its others found in
/// every order.
fn add_waiting(sources: &mut Sources) {
    let others = ["b = 1", "c = b + 2", "d = c - . + 3"];
    for order in orders(others.len()) {
        let lines: Vec<&str> = order.iter().map(|place| others[*place]).collect();
        let lines = lines.join("\n");
        sources.add(&format!("a = b + c + d\n{lines}\n"));
        sources.add(&format!("a = x - 1 + . - -d + b - c\n{lines}\nx:\n"));
        sources.add(&format!("f = a + a\na = 9 + d + 1\n{lines}\n"));
    }
    let texts = [
        "a = 1 + 2 + 3 + b\nb = c\nc = d\nd = 4\n",
        "a = b + b + b + c + c\nb = c\nc = 4\n",
        "a = b + c\nb = d\nc = d\nd = 4\n",
        "a = b + c\nc = d\nb = e\nd = e\ne = 4\n",
        "a = b - b\nb = 4\n",
        "a = b\nb = 5\nc = a\nd = e\ne = c\n",
        "a = 1 + b (\nb = 2\n",
        "a = 1 + b 2\nb = 2\n",
        "a = 1 + b +\nb = c\nc = 3\n",
        "a = 1 + b + c 2\nb = c\nc = 3\n",
        "a = 1 + b + c 2\nc = b\nb = 3\n",
        "a = 1 + b + u\nb = 2\n",
        "a = 1 + b + u 2\nb = 2\n",
    ];
    for text in texts {
        sources.add(text);
    }
}

/// Cycles of one, two and three, between equates that are found in the first
/// round and in a later one.
fn add_cycles(sources: &mut Sources) {
    let cycles = [
        "a = a",
        "a = 1 + a",
        "a = a - a",
        "a = b\nb = a",
        "b = a + 1\na = b - 1",
        "a = b\nb = c\nc = a",
        "a = c\nb = a\nc = b",
        "a = 5 + b\nb = 5 - c\nc = -a",
        "z = a\na = b\nb = a",
        "a = b\nb = a\nz = a",
    ];
    for cycle in cycles {
        sources.add(cycle);
        sources.add(&format!("x: n = 1\nm = x\n\n{cycle}\n"));
        sources.add(&format!("k = m\n{cycle}\nm = n\nn = 2\n"));
        sources.add(&format!("{cycle}\nn = 1\n"));
    }
}

/// Names that nothing defines, at each place of an expression and behind
/// others.
fn add_undefined(sources: &mut Sources) {
    let texts = [
        "n = 1\na = u + n\n",
        "n = 1\na = n + u\n",
        "n = 1\na = n - u + n\n",
        "n = k\na = n + u\nk = 1\n",
        "a = b\nb = c\nc = u\nn = 1\n",
        "n = 1\nc = u\nb = c\na = b\n",
        "x: a = X\n",
        "x: a = x.\n",
        "x: a = x + .x\n",
        "x y: a = x\n",
        ": a = u\n",
        "n m = 1\na = n\n",
        ".data\nx: a = u + x\n.bss\nb = x\n",
        "a = u\nb = v\n",
        "n = 1\n\n\nb = v\na = u\n",
    ];
    for text in texts {
        sources.add(text);
    }
}

/// One name for two equates or for an equate and a label: 14 before 15, and
/// the first place in the order of the rounds.
fn add_named_twice(sources: &mut Sources) {
    let texts = [
        "a = b\na = 1\n",
        "a = b\na = 1\nb = 2\n",
        "a = 1\na = b\n",
        "b = 2\na = b\na = 1\n",
        "a = b\nb = 2\na = 1\n",
        "a = b\na = c\nc = 1\nb = 2\n",
        "a = b\na = c\nb = 1\n",
        "a = a\na = 1\n",
        "a = 1\na = a\n",
        "a = 1\na = (\n",
        "a = (\na = 1\n",
        "a = u\na = u\n",
        "a = b\na = 1\nc = (\nb = 2\n",
        "x:\nx = 1\nx = 2\n",
        "x = 1\nx = 2\nx:\n",
        "a = 1\na = 2\nx = 1\nx:\n",
        "x = 1\na = 1\na = 2\nx:\n",
        "a = 1\nx = 1\na = 2\nx:\n",
        "a = b\na = 1\nx = 1\nb = 2\nx:\n",
        "x = (\nx:\n",
        "x = u\nx:\n",
        "a = u\nx = x\nx:\n",
        "a = (\nx = 1\nx:\n",
        "a = x\nx = 5\nx:\n",
        "n m = 1\nn m = 2\n",
        "n m:\nn m = 1\n",
        ".equ x, 1\n.set x, 2\n",
        ".equ x, 1\nx = 2\n",
        ".equ .x, 1\n.x:\n",
        "X = 1\nx:\n",
    ];
    for text in texts {
        sources.add(text);
    }
}

/// Sums at the edges of 64 signed bits that stay inside them.
fn add_edges(sources: &mut Sources) {
    let sums = [
        "9223372036854775807",
        "-9223372036854775807",
        "--9223372036854775807",
        "---9223372036854775807",
        "9223372036854775808",
        "-9223372036854775808",
        "--9223372036854775808",
        "0x7FFFFFFFFFFFFFFF",
        "0x8000000000000000",
        "-0x8000000000000000",
        "0b111111111111111111111111111111111111111111111111111111111111111",
        "-9223372036854775807 - 1",
        "-1 - 9223372036854775807",
        "-9223372036854775807 + -1",
        "9223372036854775806 + 1",
        "9223372036854775807 - 9223372036854775807",
        "9223372036854775807 - 1 + 1",
        "0 - 9223372036854775807 - 1 + 1",
        "-9223372036854775807 - 1 + 9223372036854775807",
        "l",
        "+l",
        "--l",
        "0 + --l",
        "l + g",
        "g + l",
        "g - g",
        "-g",
        "-g - 1",
        "l + g - g",
        "l + g + 1",
        "-1 - g",
    ];
    for sum in sums {
        sources.add(&format!(
            "l = -9223372036854775807 - 1\ng = 9223372036854775807\nn = {sum}\n"
        ));
    }
}

/// Sums that go beyond 64 signed bits: a term times its signs, that times
/// its operator, and a partial sum.
fn add_beyond(sources: &mut Sources) {
    let sums = [
        "-l",
        "---l",
        "0 + -l",
        "0 - l",
        "0 - --l",
        "0 - -l",
        "-l - l",
        "g + 1",
        "1 + g",
        "g + 1 - 1",
        "l - 1",
        "l - 1 + 1",
        "l + l",
        "g - -1",
        "g + g + l",
        "9223372036854775807 + 9223372036854775807",
        "g + 1 + u",
        "g + 1 2",
        "g + 1 +",
    ];
    let edges = "l = -9223372036854775807 - 1\ng = 9223372036854775807\n";
    for sum in sums {
        sources.add(&format!("{edges}n = {sum}\n"));
        sources.add(&format!("m = n\nn = {sum}\nk = n\n{edges}"));
    }
    sources.add(&format!("{edges}x:\nn = g + 1\nx = 1\n"));
    sources.add(&format!("n = g + 1\nk = m\nm = 3\n{edges}"));
    sources.add_at(&format!("{edges}n = g + .\n"), 4);
    sources.add_at(&format!("{edges}nop\nx: n = g + x\n"), 0);
}

/// `.` in every section, at its start, after bytes and behind a label.
fn add_heres(sources: &mut Sources) {
    for section in SECTIONS {
        let step = match section {
            ".text" => "li a0, 2048",
            _ => ".space 5",
        };
        for base in [0, 4, 0xFF00_0000] {
            let text = joined(&[
                ".data",
                ".byte 1,2,3",
                section,
                "a = .",
                step,
                "b = . - a",
                "x: c = .",
                step,
                ".equ d, . - x",
                ".set e .",
                "f = -.",
            ]);
            sources.add_at(&text, base);
        }
    }
    sources.add("n = 5\nli a0, n\na = .\nli a0, 5\nb = .\nli a0, m\nc = .\nm = 4096\n");
    sources.add("a = .\n.bss\nb = .\n.data\nc = .\n.byte 1\n.bss\nd = .\n");
    sources.add("a = . + ..\n.equ .., 2\n");
}

/// Equates of labels that stand on later lines, or are defined again there.
fn add_later_labels(sources: &mut Sources) {
    let texts = [
        "n = x\nnop\nx:\n",
        "n = y - x\nx: push ra\nnop\ny:\n",
        "n = x\nm = y\n.bss\ny: .space 3\n.data\nx: .byte 1\n",
        "x: nop\nn = x\nnop\nx:\n",
        "x: n = x\n.data\nx: m = x\n.bss\nx: k = x\n",
        "n = m\nm = x\n.bss\nx:\n",
        "n = m - x\nx: m = x\n",
        ".bss\n.space 2\nx: n = x - y\n.data\n.space 7\ny:\n",
        ".data\nn = e - s\ns: .asciz \"N 46\"\n.align 4\ne:\n",
    ];
    for text in texts {
        sources.add(text);
        sources.add_at(text, 0x1000);
    }
}

/// The bytes 9, 11 and 12 where an equate is parted, and inside its name
/// and its expression.
fn add_parted(sources: &mut Sources) {
    let templates = [
        ".equ n,@5@+@1\nm = n\n",
        ".equ@n@,@5\nm = n\n",
        ".equ n@5\nm = n\n",
        ".set@n@5@+@1@\nm = n\n",
        ".set n@@5@@-@@@1\nm = n\n",
        ".set n@m@5\nm = n\n",
        ".equ n@m, 5\nm = n\n",
        "n@=@5\nm = n\n",
        "n =@5@+@1\nm = n\n",
        "n@k = 5\nm = n\n",
    ];
    for template in templates {
        for white in ["\t", "\x0B", "\x0C", " \x0B", "\r"] {
            sources.add(&template.replace('@', white));
        }
    }
}

/// Names of every shape, as an equate's and in an expression.
fn add_names(sources: &mut Sources) {
    for name in [
        "$", "$a", "a$", "a$b.c", "_", "__", "a.b", ".a", "..", ".$", ".5", "$5", "a5", "A", "5a",
        "a-b", "a,b", "0x", "li", "a0", "ra",
    ] {
        sources.add(&format!("m = {name} + 1\n.equ {name} , 5\n"));
        sources.add(&format!("{name}: m = {name} - 1\n"));
    }
}

/// Malformed expressions of each kind: alone, behind a name that has no value
/// yet, behind one that never has, and before them.
fn add_malformed(sources: &mut Sources) {
    let tails = [
        "(",
        "1)",
        "2*3",
        "'a'",
        "1 2",
        "1 n",
        "n 1",
        "1 +",
        "- -",
        "1 . 2",
        "0x",
        "0b2",
        "12ab",
        "1_0",
        "9223372036854775808",
        ",",
        "n\x0B",
        "\"n\"",
        "!",
    ];
    for tail in tails {
        sources.add(&format!("x: a = {tail}\nn = 1\n"));
        sources.add(&format!("a = n + {tail}\nn = 1\n"));
        sources.add(&format!("n = 1\na = u + {tail}\n"));
        sources.add(&format!("n = 1\na = {tail} + u\n"));
        sources.add(&format!("a = u\nb = k + {tail}\nk = n\nn = 1\n"));
    }
}

/// Label words of labels that are defined again, and 13 before anything that
/// the rounds refuse.
fn add_words_first(sources: &mut Sources) {
    for section in SECTIONS {
        sources.add(&format!(
            ".data\n.word x\nx: .word x, y\n.bss\n.space 6\n{section}\nx:\ny:\n.data\n.word x\ny:\n"
        ));
        for error in [
            "x = 1",
            "a = 1\na = 2",
            "a = (",
            "a = a",
            "a = g + 1",
            "li a0",
        ] {
            sources.add(&format!(
                "g = 9223372036854775807\n{section}\nx:\n{error}\n.data\n.word x\n.word 7, u\n.word v\n"
            ));
        }
    }
    sources.add("n = 5\n.data\n.word n\n");
    sources.add(".data\n.word x, u, v\nx: n = u\n");
}

// ---------- expressions ----------

const SUMS: [&str; 92] = [
    "5",
    "5f",
    "0x",
    "0X",
    "0b",
    "5g",
    "0b2",
    "0b1",
    "0B11",
    "0X1f",
    "0x1F",
    "0xg",
    "5x",
    "0x5x",
    "5b",
    "0b1b",
    "10b",
    "1e3",
    "5.",
    "5.5",
    ".5",
    "5$",
    "5_",
    "1_0",
    "00x5",
    "007",
    "08",
    "x0",
    "$",
    "_",
    "$a",
    "a.b",
    "..",
    "...",
    "a$",
    "+5",
    "-5",
    "--5",
    "---5",
    "+-+5",
    "- - 5",
    "1 - -1",
    "1--1",
    "1+",
    "1-",
    "+",
    "-",
    "1 2",
    "1 + 2 3",
    "x y",
    "x 1",
    "1 x",
    ",5",
    "5,",
    "5,6",
    "5,+6",
    "1,+,2",
    "1,2,+3",
    ",",
    ", ,",
    ".",
    ". .",
    ".-.",
    ".+1",
    ".x",
    "-.",
    "'a'",
    "\"a\"",
    "0x-5",
    "-0x5",
    "0x+5",
    "9223372036854775807",
    "9223372036854775808",
    "-9223372036854775808",
    "-9223372036854775807",
    "0x7FFFFFFFFFFFFFFF",
    "0x8000000000000000",
    "0xFFFFFFFF",
    "-9223372036854775807-1",
    "9223372036854775807+1",
    "9223372036854775807-1",
    "1-2-3",
    "1-(2)",
    "x+y",
    "y-x",
    "x-y+1",
    "-x",
    "x--y",
    "2*3",
    "x\t+\ty",
    "x\x0B+y",
    "x+\x0Cy",
];

/// What stops an evaluation: an unknown name (u), an unreadable token, a
/// malformed tail; in every order.
const STOPS: [&str; 34] = [
    "u + 0x",
    "u + 10b",
    "u + 1e3",
    "u + 5x",
    "u + 5_",
    "u + 5.",
    "u + 0b2",
    "u + 0x+5",
    "u",
    "u 5",
    "u +",
    "u + (",
    "( + u",
    "5 u",
    "5 5 u",
    "u + u 5",
    "u + 5f",
    "u + 5g",
    "5g + u",
    "5f + u",
    "+ u",
    "u u",
    "u ,",
    "u - - ",
    "k u",
    "u k",
    "k + u k",
    "k k + u",
    "u + k k",
    "k +",
    "u + 'a'",
    "u % 5",
    "u + 9223372036854775808",
    "x + u",
];

fn add_expressions(sources: &mut Sources) {
    for sum in SUMS {
        for line in [
            format!("n = {sum}"),
            format!(".equ n, {sum}"),
            format!(".set n {sum}"),
        ] {
            sources.add(&format!("nop\n{line}\nli a0, n\n"));
            sources.add(&format!("x: nop\n{line}\nli a0, n\n.data\ny:\n"));
        }
    }
    for sum in STOPS {
        sources.add(&format!("n = {sum}\n"));
        sources.add(&format!("x: nop\nn = {sum}\nm = (\n"));
        sources.add(&format!("k = 5\nn = {sum}\nli a0, n\n"));
        sources.add(&format!("n = {sum}\nk = 5\nu = 6\nx: li a0, n\n"));
        sources.add(&format!("m = u\nn = {sum}\nk = m\nx: li a0, n\n"));
    }
    for byte in (0..128u8).map(char::from) {
        sources.add(&format!("n = 1{byte}2\nli a0, n\n"));
        sources.add(&format!("n = {byte}7\nli a0, n\n"));
        sources.add(&format!("x: n = x{byte}\nli a0, n\n"));
    }
}

// ---------- data ----------

fn add_data(sources: &mut Sources) {
    add_numbers(sources);
    add_aligns(sources);
    add_strings(sources);
    add_label_words(sources);
}

const NUMBERS: [&str; 50] = [
    "0",
    "1",
    "5",
    "127",
    "128",
    "255",
    "256",
    "-1",
    "-0",
    "65535",
    "65536",
    "-32768",
    "2147483647",
    "2147483648",
    "4294967295",
    "4294967296",
    "-2147483648",
    "-2147483649",
    "9223372036854775807",
    "9223372036854775808",
    "-9223372036854775807",
    "-9223372036854775808",
    "+-9223372036854775808",
    "--9223372036854775808",
    "-+9223372036854775807",
    "0x7FFFFFFFFFFFFFFF",
    "0x8000000000000000",
    "--5",
    "+-5",
    "-+5",
    "++5",
    "---5",
    "0x-5",
    "0X1f",
    "0b101",
    "0B2",
    "0x",
    "- 5",
    "5 5",
    "5x",
    "'a'",
    "'''",
    "'\\''",
    "'\\n'",
    "'\\0'",
    "'\\'",
    "''",
    "'ab'",
    "' '",
    "\"5\"",
];

/// Numbers at their limits, after each directive that takes one.
fn add_numbers(sources: &mut Sources) {
    for number in NUMBERS {
        for directive in [".byte", ".half", ".word", ".dword"] {
            sources.add(&format!(".data\n{directive} {number}\n"));
            sources.add(&format!(".data\nx: {directive} 1, {number} ,2\ny:\n"));
        }
        sources.add(&format!("li t0, {number}\nx:\n"));
        if number.len() <= 4 {
            for directive in [".space", ".zero", ".skip"] {
                sources.add(&format!(".data\n{directive} {number}\nx: .byte 1\n"));
                sources.add(&format!(".bss\n{directive} {number}\nx:\n"));
            }
        }
    }
    let lists = [
        "",
        ",",
        "1,",
        ",1",
        "1,,2",
        "1, ,2",
        "1 2",
        "1,2,3,4,5",
        "256,x",
        "x,256",
        "1,256,x",
        "1,x,256",
        "-1,",
        ",-1",
    ];
    for list in lists {
        for directive in [".byte", ".half", ".word", ".dword", ".space", ".align"] {
            sources.add(&format!(".data\n{directive} {list}\nx:\n"));
        }
    }
    for size in [
        "1048576",
        "1048577",
        "0x100000",
        "-2147483648",
        "4294967295",
        "2147483648",
    ] {
        sources.add(&format!(".bss\n.space {size}\nx:\n"));
    }
}

/// Every alignment at every place from 0 to 9. At the odd base the place
/// and the address differ, as they do in a bss after an odd data.
fn add_aligns(sources: &mut Sources) {
    for number in ["1", "2", "3", "4", "5", "8", "0", "-1"] {
        for place in 0..10 {
            for section in [".data", ".bss"] {
                let lines = [
                    section,
                    &format!(".space {place}"),
                    &format!("x: .align {number}"),
                    "y: .zero 1",
                ];
                sources.add_lines(&lines);
            }
        }
        for base in [1, 2, 3, 6] {
            sources.add_at(
                &format!(".data\n.byte 1\n.align {number}\nx: .byte 2\n"),
                base,
            );
        }
        sources.add(&format!(
            ".data\n.byte 1,2,3\n.bss\n.align {number}\nx: .skip 1\ny:\n"
        ));
    }
    for number in [
        "2147483647",
        "0x40000000",
        "2147483648",
        "4294967295",
        "'a'",
        "'\\0'",
        "6",
        "16",
    ] {
        sources.add(&format!(".data\n.align {number}\nx: .byte 1\n"));
        sources.add(&format!(".bss\n.align {number}\nx: .space 1\n"));
    }
    for number in ["6", "7", "12", "16", "0x10", "'a'"] {
        sources.add(&format!(
            ".data\n.byte 1,2,3\n.align {number}\nx: .byte 1\n"
        ));
        sources.add(&format!(".bss\n.space 7\n.align {number}\nx: .space 1\n"));
    }
}

fn add_strings(sources: &mut Sources) {
    let shapes = [
        "\"\"",
        "\"a\"",
        "\"",
        "",
        "a",
        "\"a",
        "a\"",
        "'a'",
        "\"a\" \"b\"",
        "\"a\"b",
        "\"a\",\"b\"",
        "\"\"\"",
        "\"\"\"\"",
        "\" \"",
        "\" a \"",
        "\"a\\n\"",
        "\"\\\"",
        "\"\\\"\"",
        "\"a\\\"",
        "\",\"",
        "\"%\"",
        "\"a=b\"",
        "\"a:b\"",
        "\"a;b\"",
        "\"a#b\"",
        "\"\t\"",
        "\"\r\"",
        "\"\x0B\x0C\"",
        "\"\0\"",
        "\"\x7F\"",
        "\"a\nb\"",
        "5",
        "x",
        "\"N 12 E 47\"",
        ".",
        "\"a\" x \"",
        "\" ",
        " \"",
        "\"\"x",
    ];
    for shape in shapes {
        for directive in [".asciz", ".string", ".ascii"] {
            sources.add(&format!(".data\n{directive} {shape}\nx: .byte 9\n"));
            sources.add(&format!(".data\ny: {directive}{shape} \nx:\n"));
        }
    }
}

fn add_label_words(sources: &mut Sources) {
    let names = [
        "x", "_x", ".x", "x1", "x.y", "X", "1x", "$x", "x$", "x-y", "x+4", "-x", "+x", "x y",
        "'x'", "(x)", "x()", ".", "..", "_", "a0", "0x", "'a", "x\tx",
    ];
    for name in names {
        sources.add(&format!(".data\n.word {name}\n"));
        sources.add(&format!("n = 1\n.data\n.byte 1\n.word 1,{name},n\n"));
        for section in SECTIONS {
            sources.add(&format!(
                "nop\n{section}\n{name}:\n.data\n.word 7, {name}\n"
            ));
            sources.add(&format!(
                ".data\n.word {name}\n.bss\n.space 2\n{section}\n{name}:\n"
            ));
        }
    }
    for (first, second) in [("x", "y"), ("y", "x"), ("u", "x"), ("x", "u"), ("u", "v")] {
        sources.add(&format!(
            ".data\n.word {first},{second}\nx: .half 1\n.bss\ny:\n"
        ));
        sources.add(&format!(
            ".data\nx: .word {first}\ny:\n.word {second}\nn = (\n"
        ));
    }
}

/// Bytes at both sides of each edge of what a name may hold, as a `.word`'s
/// first byte and as a later one.
fn add_name_edges(sources: &mut Sources) {
    for byte in "@AZ[^_`az{/09:-.$".chars() {
        sources.add(&format!(".data\ny: .word {byte}\n"));
        sources.add(&format!(".data\ny: .word x, x{byte}\n"));
    }
}

// ---------- items ----------

/// Each spelling, and its operands in a good line.
const PSEUDOS: [(&str, &str); 12] = [
    ("li", "a0, 5"),
    ("la", "a0, x"),
    ("push", "ra"),
    ("pop", "ra"),
    ("print", "a0"),
    ("print_str", "x"),
    ("printStr", "x"),
    ("printString", "x"),
    ("read", "x"),
    ("read_byte", "x"),
    ("readByte", "x"),
    ("random", "a0"),
];

fn add_items(sources: &mut Sources) {
    add_pseudo_lines(sources);
    add_li(sources);
    add_addresses(sources);
    for line in [
        "print_str_ln x",
        "printStrLn x",
        "read_half x",
        "readHalf x",
        "read_word x",
        "readWord x",
        "random_bytes x, 4",
        "randomBytes x, 4",
        "print_str_ln",
        "random_bytes",
        "li",
        "la",
        "push",
        "pop",
        "LI a0, 5",
        "Print a0",
        "printS x",
        "reads x",
        "lib a0, 5",
        "halt",
        "ecall",
        "beq a0, a1, x",
    ] {
        sources.add_lines(&["x:", line, "y: nop"]);
        sources.add_lines(&["x: nop", line, "li a0"]);
        sources.add_lines(&["li a0", line, ".data", ".float 1"]);
        sources.add_lines(&["x: nop", line, ".data", ".byte z", ".float 1"]);
        sources.add_lines(&[&line.replace(' ', "\t"), ".data", ".word u"]);
    }
}

/// Every pseudo with everything that can stand in its operands' place.
fn add_pseudo_lines(sources: &mut Sources) {
    let operands = [
        "",
        "a0",
        "a0, x",
        "a0, 5",
        "x",
        "5",
        ",",
        ", ,",
        "a0,",
        ",a0",
        ",,a0,,",
        "a0,,x",
        "a0, x, 5",
        "a0 x",
        "x, a0",
        "x0, x",
        "X31",
        "x32",
        "x05",
        "x+5",
        "x-5",
        "ZERO",
        "fp",
        "s11",
        "s12",
        "u",
        "a0, u",
        "z, x",
        "z, u",
        "x y",
        "a0, x y",
        "a0, X",
        "a0, n",
        "n",
        "'a'",
        "a0, 'a'",
        "a0, a0",
        "a0, x0",
        "a0 , x , ",
        "a0,x",
        "\"x\"",
        "-x",
        "x+0",
        ".",
    ];
    for (name, good) in PSEUDOS {
        for between in ["", " ", "  ", "\t", " \t", "\x0B", ",", ":", "."] {
            sources.add(&format!("{name}{between}{good}\nx: nop\n"));
            sources.add(&format!("y:{name}{between}\nx:\n"));
        }
        for operand in operands {
            sources.add(&format!("n = 5\n{name} {operand}\nx: push ra\n"));
        }
        for label in ["x y", "a0", "x32", "X", "-x", "."] {
            sources.add(&format!("{name} {label}\n{label}: {name} a0, {label}\n"));
        }
    }
    add_good_pseudos(sources);
}

/// Every pseudo in a good line, and labels that show how much it reserves.
fn add_good_pseudos(sources: &mut Sources) {
    for (name, good) in PSEUDOS {
        sources.add(&format!("x: nop\n{name} {good}\ny: {name} {good}\nz:\n"));
    }
}

fn add_li(sources: &mut Sources) {
    let numbers = [
        "-2049",
        "-2048",
        "-1",
        "0",
        "2047",
        "2048",
        "4095",
        "4096",
        "-4096",
        "0x7FFFF7FF",
        "0x7FFFF800",
        "0x7FFFFFFF",
        "0x80000000",
        "2147483648",
        "4294965247",
        "4294965248",
        "4294967295",
        "4294967296",
        "-2147483648",
        "-2147483649",
        "0xFFFFF800",
        "0x800",
        "-0x801",
        "305419896",
    ];
    for number in numbers {
        sources.add(&format!("li a0, {number}\nx: nop\n"));
        sources.add(&format!("li zero, {number}\nx: nop\n"));
        sources.add(&format!("n = {number}\nli t6, n\nx: la a0, x\n"));
        sources.add(&format!(
            "li s1, n\nx: li a1, m\nm = n + 1\n.equ n, {number}\n"
        ));
        sources.add(&format!("li z, {number}\n"));
        sources.add(&format!("li a0, {number}, 5\nx: n = (\n"));
    }
    let literals = [
        "'a'", "' '", "'  '", "'\t'", "'\t '", "' a'", "'a '", "','", "',", "'\\n'", "'\\ n'",
        "'\\'", "'''", "'\\''", "''", "'", "'ab'", "'\\0'", "'\\x'", "'\"'", "'\\\"'", "'+'",
        "'-5'", "-'a'", "'a'+1", "'a'5", "'%'", "'\0'", "'\x7F'", "'\x0B'", "'='", "':'", "';'",
    ];
    for literal in literals {
        sources.add(&format!("li a0, {literal}\nx:\n"));
        sources.add(&format!(".equ q, 5\nli a0 ,{literal}, \nx: li a0, q\n"));
        sources.add(&format!(".equ {literal}, 5\nli a0, {literal}\n"));
    }
}

/// Addresses around the place where checked Rust panics, by the base and by
/// bytes reserved in bss.
fn add_addresses(sources: &mut Sources) {
    let bases = [
        0,
        4,
        0x1000,
        0x7FFF_E000,
        0x7FFF_E7FC,
        0x7FFF_E800,
        0x7FFF_F000,
        0x7FFF_F7F8,
        0x7FFF_FFF8,
        0x8000_0000,
        0xFEFF_F000,
        0xFF00_0000,
        0xFF00_0001,
    ];
    let programs = [
        "x: la a0, x\nla a1, y\n.data\ny: .word x,y\n",
        "la a0, y\n.bss\n.space 2047\ny:\n",
        "la a0, y\n.bss\n.space 2048\ny:\n",
        "n = y\nli a0, n\n.data\ny:\n",
        "n = y - x\nx: li a0, n\n.bss\ny:\n",
        "print_str y\nread y\nread_byte y\n.data\n.byte 1\ny:\n",
        "nop\nx: push ra\nn = . - x\nli a0, n\nla a1, x\n",
        "la a0, u\n",
    ];
    for base in bases {
        for program in programs {
            sources.add_at(program, base);
        }
    }
}

// ---------- refusals ----------

/// A few lines for each refusal, in the order in which the layout meets
/// them; each begins its own section, and `@` makes its names its own.
pub const ERRORS: [(u32, &str); 38] = [
    (2, ".section"),
    (3, ".section heap"),
    (4, ".globl"),
    (4, "@x: .global"),
    (5, ".equ @n"),
    (5, ".set , 5"),
    (6, ".data\n.byte 1,z"),
    (6, ".bss\n.space z"),
    (7, ".data\n.half 65536"),
    (7, ".data\n.align 0"),
    (7, ".bss\n.skip -1"),
    (8, ".data\n.word 5x"),
    (9, ".data\n.asciz a"),
    (10, ".data\n.skip 4"),
    (10, ".data\nnop"),
    (11, ".bss\nnop"),
    (12, ".bss\n.byte 1"),
    (12, ".bss\n.float 1"),
    (13, ".data\n.word u@"),
    (14, "l@:\nl@ = 5"),
    (14, "l@ = u@\nl@:"),
    (15, "d@ = 5\nd@ = 6"),
    (15, "d@ = d@\nd@ = 6"),
    (16, "m@ = ("),
    (16, "m@ = 5 5"),
    (16, "m@ = k@ 5\nk@ = 5"),
    (17, "w@ = u@"),
    (17, "w@ = v@\nv@ = w@"),
    (18, ".text\nli a0"),
    (18, ".text\nla z, u@"),
    (18, ".text\npush ,"),
    (18, ".text\nprint"),
    (18, ".text\nread a0"),
    (19, ".text\nli a0, u@"),
    (19, ".text\nb@ = 4294967295\nli a0, b@"),
    (20, ".text\nla a0, u@"),
    (20, ".text\nprint_str u@"),
    (20, ".text\nread_byte u@"),
];

/// Each refusal alone, before and after other lines, and before and after
/// every other.
fn add_errors(sources: &mut Sources) {
    for (_, error) in ERRORS {
        let error = error.replace('@', "1");
        sources.add(&error);
        sources.add(&format!("\n; none\nnop\n{error}\n"));
        sources.add(&format!("x: la a0, x\n{error}\n.data\ny: .byte 1\n"));
        sources.add(&format!(
            ".data\n.word x\nx:\nn = 5\n{error}\n.text\nli a0, n\n"
        ));
        sources.add(&format!(".bss\n{error}\n"));
        sources.add(&format!(".data\n{error}\n"));
    }
    for (_, first) in ERRORS {
        for (_, second) in ERRORS {
            let (first, second) = (first.replace('@', "1"), second.replace('@', "2"));
            sources.add(&format!("{first}\n{second}\n"));
        }
    }
}

// ---------- random ----------

/// Lines that suit any section, or begin their own.
const LINES: [&str; 54] = [
    ".text",
    ".data",
    ".bss",
    ".data",
    ".section .rodata",
    ".section sbss",
    "",
    "# none",
    "a:",
    "b:",
    "c:",
    "d: ;",
    "a: b:",
    ":",
    "n = 5",
    "m = n + 1",
    "k = . - a",
    "n = m - b",
    ".equ h, k",
    ".set g 7",
    "g = h - -3",
    "e = f",
    "f = 4096",
    ".globl a",
    ".type a",
    "q = 0x7FFFF800",
    "r = -2048",
    ".text\nli a0, n",
    ".text\nli a1, m",
    ".text\nli a2, k",
    ".text\nla a3, a",
    ".text\nla t0, b",
    ".text\npush s0",
    ".text\npop s0",
    ".text\nprint a0",
    ".text\nprint_str c",
    ".text\nread b",
    ".text\nreadByte a",
    ".text\nrandom t1",
    ".text\nnop",
    ".text\nli t2, 2048",
    ".text\nadd a0, a0, a1",
    ".data\n.byte 1,2",
    ".data\n.half 513",
    ".data\n.word a,b",
    ".data\n.word 7",
    ".data\n.dword -2",
    ".data\n.asciz \"N\"",
    ".data\n.align 4",
    ".data\n.align 3",
    ".data\n.space 3",
    ".bss\n.space 5",
    ".bss\n.align 4",
    ".bss\n.zero 2",
];

/// Lines that make most sources go through: every label and name is there.
const DEFINED: &str = ".bss\na: .space 3\nb:\n.text\nc: nop\n";

fn add_random(sources: &mut Sources) {
    let mut random = Random::new(0x4C61_796F_7574_2121);
    for round in 0..500 {
        let mut text = String::new();
        for _ in 0..3 + random.below(9) {
            text.push_str(random.pick(&LINES));
            text.push('\n');
        }
        if round % 2 == 0 {
            text.push_str(DEFINED);
        }
        let base = [0, 4, 0x1000, 3, 0x7FFF_E000, 0xFEFF_F000][random.below(6)];
        sources.add_at(&text, base);
    }
}
