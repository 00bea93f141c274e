//! The cases for numbers, literals, registers, operands and lines.

use std::collections::HashMap;

use crate::cases::{escape, escape_list, Cases};
use crate::falcon::asm::{assembler, pseudo, utils};
use crate::random::Random;

/// The kinds of case, in the order of the list.
const KINDS: &str = "ilcsrodtnbhk";

/// Puts one text to the reference. A text outside the kind's domain has no
/// answer, and the case is not written.
type Ask = fn(&str) -> Option<String>;

/// Where the answers about one text come from; `n` asks about two.
const ASKED: [(char, Ask); 11] = [
    ('i', ask_number),
    ('l', ask_long_number),
    ('c', ask_character),
    ('s', ask_string),
    ('r', ask_register),
    ('o', ask_operands),
    ('d', ask_data_operands),
    ('t', ask_line),
    ('b', ask_byte),
    ('h', ask_half),
    ('k', ask_twelve_bits),
];

/// What `str::trim` takes away.
const WHITE: [&str; 6] = ["\t", "\n", "\x0B", "\x0C", "\r", " "];

/// Control bytes beside the white ones, and others that some languages count
/// as white: the reference trims none of them.
const NOT_WHITE: [&str; 7] = ["\0", "\x08", "\x0E", "\x1C", "\x1F", "\x7F", "_"];

const SIGNS: [&str; 3] = ["", "+", "-"];

const ABI_NAMES: [&str; 33] = [
    "zero", "ra", "sp", "gp", "tp", "t0", "t1", "t2", "s0", "fp", "s1", "a0", "a1", "a2", "a3",
    "a4", "a5", "a6", "a7", "s2", "s3", "s4", "s5", "s6", "s7", "s8", "s9", "s10", "s11", "t3",
    "t4", "t5", "t6",
];

pub fn all_cases() -> Cases {
    let mut cases = Cases::new(KINDS);
    let mut random = Random::new(0x4B6F_6468_6C61_6365);
    add_numbers(&mut cases, &mut random);
    add_ranges(&mut cases);
    add_characters(&mut cases, &mut random);
    add_strings(&mut cases, &mut random);
    add_registers(&mut cases, &mut random);
    add_operands(&mut cases, &mut random);
    add_lines(&mut cases, &mut random);
    add_names(&mut cases, &mut random);
    cases
}

// ---------- asking the reference ----------

/// Adds a case of every kind named, one letter each, about one text.
fn add(cases: &mut Cases, kinds: &str, text: &str) {
    for (kind, ask) in ASKED {
        if kinds.contains(kind) {
            if let Some(answer) = ask(text) {
                cases.add(kind, &[text], answer);
            }
        }
    }
}

fn add_all(cases: &mut Cases, kinds: &str, texts: &[String]) {
    for text in texts {
        add(cases, kinds, text);
    }
}

fn decimal_or_no<T: ToString>(number: Option<T>) -> Option<String> {
    Some(number.map_or("no".to_string(), |number| number.to_string()))
}

fn yes_or_no(condition: bool) -> String {
    let word = if condition { "yes" } else { "no" };
    word.to_string()
}

fn ask_number(text: &str) -> Option<String> {
    decimal_or_no(utils::parse_imm(text))
}

fn ask_long_number(text: &str) -> Option<String> {
    decimal_or_no(utils::parse_imm64(text))
}

fn ask_character(text: &str) -> Option<String> {
    decimal_or_no(utils::parse_char_lit(text).ok())
}

fn ask_string(text: &str) -> Option<String> {
    let answer = match utils::parse_str_lit(text) {
        Some(content) => format!("={}", escape(&content)),
        None => "no".to_string(),
    };
    Some(answer)
}

fn ask_register(text: &str) -> Option<String> {
    decimal_or_no(utils::parse_reg(text))
}

fn ask_operands(text: &str) -> Option<String> {
    Some(escape_list(&utils::split_operands(text)))
}

/// The reference parts a data directive's operands in the middle of
/// `assemble`, where no function of its own can be asked; this is the same
/// standard library's parting and trimming.
fn ask_data_operands(text: &str) -> Option<String> {
    let operands: Vec<&str> = text.split(',').map(str::trim).collect();
    Some(escape_list(&operands))
}

/// One line only, so a text with a line end has no answer.
fn ask_line(text: &str) -> Option<String> {
    if text.contains('\n') {
        return None;
    }
    let left = utils::preprocess(text);
    Some(left.first().map_or(String::new(), |(_, line)| escape(line)))
}

/// A number that can stand in a source line without meaning anything else.
fn is_plain_number(text: &str) -> bool {
    let plain = |byte: u8| byte.is_ascii_alphanumeric() || byte == b'+' || byte == b'-';
    text.bytes().all(plain) && utils::parse_imm(text).is_some()
}

fn ask_directive(directive: &str, text: &str) -> Option<String> {
    if !is_plain_number(text) {
        return None;
    }
    let source = format!(".data\n{directive} {text}");
    Some(yes_or_no(assembler::assemble(&source, 0).is_ok()))
}

fn ask_byte(text: &str) -> Option<String> {
    ask_directive(".byte", text)
}

fn ask_half(text: &str) -> Option<String> {
    ask_directive(".half", text)
}

fn ask_twelve_bits(text: &str) -> Option<String> {
    let number = utils::parse_imm(text)?;
    Some(yes_or_no(utils::check_signed(number, 12, "").is_ok()))
}

/// Whether `la` with this operand finds a label of this name. The operand is
/// one operand, and the name is one that a line can define.
fn add_name(cases: &mut Cases, operand: &str, name: &str) {
    if operand.contains(',') || operand.trim().is_empty() {
        return;
    }
    if name != name.trim() || name.contains([':', ';', '#', '\n']) {
        return;
    }
    let labels = HashMap::from([(name.to_string(), 0x1000)]);
    let found = pseudo::parse_la(&format!("la a0, {operand}"), &labels).is_ok();
    cases.add('n', &[operand, name], yes_or_no(found));
}

// ---------- making texts ----------

/// Every text of at most `longest` letters, the empty one included.
fn short_texts(alphabet: &str, longest: usize) -> Vec<String> {
    let mut texts = vec![String::new()];
    let mut start = 0;
    for _ in 0..longest {
        let end = texts.len();
        for place in start..end {
            for letter in alphabet.chars() {
                texts.push(format!("{}{letter}", texts[place]));
            }
        }
        start = end;
    }
    texts
}

/// The template with each of the 128 bytes in place of its `@`.
fn every_byte(template: &str) -> Vec<String> {
    let put = |byte: u8| template.replace('@', &(byte as char).to_string());
    (0..128).map(put).collect()
}

/// The text inside every white and nearly white byte: before, after, around.
fn surrounded(text: &str) -> Vec<String> {
    let mut texts = Vec::new();
    for edge in WHITE.iter().chain(&NOT_WHITE) {
        texts.push(format!("{edge}{text}"));
        texts.push(format!("{text}{edge}"));
        texts.push(format!("{edge}{edge}{text}{edge}"));
        texts.push(format!(" {edge}{text}{edge} "));
    }
    texts
}

/// A magnitude in every base and every spelling of its prefix.
fn spellings(magnitude: u128) -> [(&'static str, String); 6] {
    [
        ("", format!("{magnitude}")),
        ("0x", format!("{magnitude:x}")),
        ("0x", format!("{magnitude:X}")),
        ("0X", format!("{magnitude:x}")),
        ("0b", format!("{magnitude:b}")),
        ("0B", format!("{magnitude:b}")),
    ]
}

/// A magnitude in every spelling with every outer and inner sign.
fn signed_spellings(magnitude: u128) -> Vec<String> {
    let mut texts = Vec::new();
    for (prefix, digits) in spellings(magnitude) {
        for outer in SIGNS {
            for inner in SIGNS {
                texts.push(format!("{outer}{prefix}{inner}{digits}"));
            }
        }
    }
    texts
}

/// A power of two with the number on each side of it.
fn around_power(exponent: u32) -> [u128; 3] {
    let power = 1u128 << exponent;
    [power - 1, power, power + 1]
}

// ---------- the kinds ----------

fn add_numbers(cases: &mut Cases, random: &mut Random) {
    add_all(cases, "i", &short_texts("+-019xbf' \t\\n\"", 3));
    add_all(cases, "l", &short_texts("+-01xb' \t", 3));
    add_all(cases, "il", &short_texts("+-01x", 4));
    for exponent in [31, 32, 63, 64] {
        for magnitude in around_power(exponent) {
            add_all(cases, "il", &signed_spellings(magnitude));
        }
    }
    for magnitude in [0, 5, 10u128.pow(18), 10u128.pow(19), u128::MAX] {
        add_all(cases, "il", &signed_spellings(magnitude));
    }
    add_leading_zeros(cases);
    add_odd_numbers(cases);
    for template in ["@5", "5@", "-@5", "5@5", "0@1", "0x@", "0x1@", "0b@", "'@'"] {
        add_all(cases, "i", &every_byte(template));
    }
    for text in ["5", "-0x5", "'a'"] {
        add_all(cases, "il", &surrounded(text));
    }
    add_random_numbers(cases, random);
}

fn add_leading_zeros(cases: &mut Cases) {
    let magnitudes = [0, 5, 1 << 31, (1 << 32) - 1, (1 << 63) - 1, 1u128 << 63];
    for (magnitude, zeros) in magnitudes.iter().flat_map(|m| [1, 7, 40].map(|z| (*m, z))) {
        for (prefix, digits) in spellings(magnitude) {
            let padded = "0".repeat(zeros) + &digits;
            for (outer, inner) in [("", ""), ("-", ""), ("+", "-"), ("-", "-")] {
                add(cases, "il", &format!("{outer}{prefix}{inner}{padded}"));
            }
        }
    }
}

/// Numbers that look alike and are read differently, or not at all.
fn add_odd_numbers(cases: &mut Cases) {
    let odd = [
        "0x-5",
        "0x+5",
        "-0x-5",
        "--5",
        "+-5",
        "-+5",
        "++5",
        "---5",
        "+--5",
        "0X7f",
        "0X7F",
        "0B1",
        "0b2",
        "0b",
        "0x",
        "0X",
        "0B",
        "-0x",
        "0x-",
        "0b+",
        "0xg",
        "0x 5",
        "0x5 ",
        "- 5",
        "+ 5",
        "5-",
        "5+",
        "1_000",
        "1e3",
        "1.0",
        "0o7",
        "07",
        "08",
        "5h",
        "$5",
        "00x5",
        "0x0x5",
        "0b0b1",
        "0x0b1",
        "-00",
        "0x_5",
        "x5",
        "b1",
        "zero",
        "five",
        "5,5",
        "5 5",
        "''",
        "'''",
        "'\\''",
        "'\\'",
        "-'a'",
        "+'a'",
        "'a' ",
        " 'a'",
        "'-5'",
        "'5'",
        "'ab'",
        "\"5\"",
        "(5)",
        "0xdeadbeef",
        "0xDeadBeef",
        "0xcafe",
        "4294967295",
        "-4294967295",
        "-2147483649",
    ];
    for text in odd {
        add(cases, "ilk", text);
    }
}

fn add_random_numbers(cases: &mut Cases, random: &mut Random) {
    for _ in 0..300 {
        let spellings = spellings(random.magnitude().into());
        let (prefix, digits) = &spellings[random.below(spellings.len())];
        let (outer, inner) = (random.pick(&SIGNS), random.pick(&["", "", "+", "-"]));
        let (before, after) = (random.pick(&["", " ", "\t"]), random.pick(&["", " "]));
        let text = format!("{before}{outer}{prefix}{inner}{digits}{after}");
        add(cases, "il", &text);
    }
    let pieces = [
        "+", "-", "0", "1", "2", "7", "9", "a", "F", "x", "b", "0x", "0b", "0X", " ", "\t", "'",
        "\\", "00", "99999", "ffff",
    ];
    for _ in 0..300 {
        add(cases, "il", &random.text(&pieces, 40));
    }
}

/// The limits of a byte, a half and a twelve-bit number.
fn add_ranges(cases: &mut Cases) {
    add_all(cases, "bhk", &signed_spellings(0));
    for exponent in [1, 7, 8, 11, 12, 15, 16, 31, 32] {
        for magnitude in around_power(exponent) {
            add_all(cases, "bhk", &signed_spellings(magnitude));
        }
    }
}

fn add_characters(cases: &mut Cases, random: &mut Random) {
    add_all(cases, "c", &short_texts("'\\nt0\"a ", 3));
    let templates = [
        "@", "'@'", "'\\@'", "@'a'", "'a'@", "'@", "@'", "'@@'", "\"@\"", "'@n'", "'\\\\@'",
    ];
    for template in templates {
        add_all(cases, "c", &every_byte(template));
    }
    for middle in short_texts("'\\nrt0\"a ", 2) {
        add(cases, "cil", &format!("'{middle}'"));
    }
    let pieces = ["'", "'", "\\", "n", "t", "r", "0", "\"", "a", " ", "\t"];
    for _ in 0..200 {
        add(cases, "c", &random.text(&pieces, 40));
    }
}

fn add_strings(cases: &mut Cases, random: &mut Random) {
    add_all(cases, "s", &short_texts("\"a \\,", 4));
    add_all(cases, "s", &short_texts("\" \t", 5));
    for template in ["@", "\"@\"", "@\"a\"", "\"a\"@", "\"@", "@\""] {
        add_all(cases, "s", &every_byte(template));
    }
    for text in ["\"\"", "\"", "\"N 12\"", "\" a b \"", "'a'"] {
        add_all(cases, "s", &surrounded(text));
    }
    let pieces = [
        "\"", "\"", "a", "Z", " ", "\t", "\\", "\\n", ",", "%", ";", "#", ":", "\0",
    ];
    for _ in 0..200 {
        add(cases, "s", &random.text(&pieces, 40));
        add(cases, "s", &format!("\"{}\"", random.text(&pieces, 38)));
    }
}

fn add_registers(cases: &mut Cases, random: &mut Random) {
    add_all(cases, "r", &short_texts("xXzrasgpft0123456789+- ", 2));
    add_all(cases, "r", &short_texts("xat0139+-", 3));
    for number in 0..=33 {
        add_register_spellings(cases, number);
    }
    for number in 0..=300 {
        add(cases, "r", &format!("x{number}"));
    }
    for name in ABI_NAMES {
        add_abi_name(cases, name);
    }
    for template in [
        "@sp", "sp@", "s@p", "@x5", "x5@", "x@5", "zero@", "@zero", "s@1", "s1@",
    ] {
        add_all(cases, "r", &every_byte(template));
    }
    for text in ["x31", "a0", "ZERO"] {
        add_all(cases, "r", &surrounded(text));
    }
    let odd = [
        "",
        "x",
        "X",
        "x++5",
        "x+-5",
        "x--5",
        "x 5",
        "x00000000031",
        "x00000000032",
        "x256",
        "x287",
        "x288",
        "x65541",
        "x4294967301",
        "xx5",
        "x0x5",
        "x5x",
        "x5.",
        "5",
        "a8",
        "a9",
        "s12",
        "s13",
        "s01",
        "s011",
        "t7",
        "t00",
        "ra0",
        "zer",
        "zeroo",
        "a00",
        "fp0",
        "fp1",
        "pc",
        "f0",
        "fa0",
        "ft0",
        "sp,",
        "(sp)",
        "0(sp)",
        "a 0",
        "s 1",
        "r0",
        "$5",
        "%5",
        "zero zero",
        "x5 x6",
        "s+1",
        "a-0",
        "t\0",
        "\0sp",
        "s\0p",
        "sp\0",
        "sp ",
        " sp",
        "\tsp\r",
        "Xs",
        "sx",
    ];
    for text in odd {
        add(cases, "r", text);
    }
    let pieces = [
        "x", "X", "a", "s", "t", "S", "ze", "ro", "0", "1", "2", "3", "9", "+", "-", " ", "p", "r",
    ];
    for _ in 0..300 {
        add(cases, "r", &random.text(&pieces, 6));
        add(cases, "r", &random.text(&pieces, 40));
    }
}

fn add_register_spellings(cases: &mut Cases, number: u32) {
    for before in [
        "X",
        "x0",
        "x00000000",
        "x+",
        "X+",
        "x-",
        "x++",
        "x+0",
        "x ",
        " x",
        "y",
        "",
    ] {
        add(cases, "r", &format!("{before}{number}"));
    }
}

/// A name in every mix of letter cases, and with a byte too many or too few.
fn add_abi_name(cases: &mut Cases, name: &str) {
    for mix in 0..1u32 << name.len() {
        let letters = name.chars().enumerate();
        let mixed = letters.map(|(place, letter)| match mix >> place & 1 {
            0 => letter,
            _ => letter.to_ascii_uppercase(),
        });
        add(cases, "r", &mixed.collect::<String>());
    }
    for extra in ["0", "1", "2", "x", "p", "o", " ", "\0", "."] {
        add(cases, "r", &format!("{name}{extra}"));
        add(cases, "r", &format!("{extra}{name}"));
    }
    add(cases, "r", &name[1..]);
    add(cases, "r", &name[..name.len() - 1]);
}

fn add_operands(cases: &mut Cases, random: &mut Random) {
    add_all(cases, "od", &short_texts("a, ", 5));
    add_all(cases, "od", &short_texts("a,\t'", 4));
    for template in ["a@,b", "@", ",@,a"] {
        add_all(cases, "od", &every_byte(template));
    }
    let listed = [
        "a0, 5",
        "a0,5",
        "a0 5",
        "a0,,5",
        ",a0,5,",
        "','",
        "a0, ','",
        "\"a,b\"",
        "a0 , lab el",
        " 1 , 2 , 3 ",
        "1,2,3,",
        "t0, 0(sp)",
        "%,%%",
        "a\t,\tb",
    ];
    for text in listed {
        add(cases, "od", text);
    }
    let pieces = [
        ",", ",", ", ", " ", "\t", "\r", "\x0B", "\0", "a0", "5", "-1", "lab", "'", "\"", "%",
    ];
    for _ in 0..250 {
        add(cases, "od", &random.text(&pieces, 40));
    }
}

fn add_lines(cases: &mut Cases, random: &mut Random) {
    add_all(cases, "t", &short_texts(";#a ", 4));
    add_all(cases, "t", &short_texts(";#a\r\"'", 3));
    for template in ["@", "a@", "@a", "a@a", "a@;", "#@a"] {
        add_all(cases, "t", &every_byte(template));
    }
    let listed = [
        "li a0, 5 # five",
        "li a0, '#'",
        "li a0, ';'",
        ".ascii \"a;b\"",
        ".ascii \"a#b\"",
        "a # b ; c",
        "a ; b # c",
        "##! block",
        "#! seen",
        "lab:",
        "\tla a0, lab\t; there",
        "  ",
        " \t\x0B\x0C\r ",
        "a\r",
        "\ra",
        "a \r;",
        "nop;nop",
        "%25",
    ];
    for text in listed {
        add(cases, "t", text);
    }
    let pieces = [
        ";", "#", " ", "\t", "\r", "\x0C", "\0", "li a0, 5", "lab:", "'", "\"", ".byte 1", "a",
    ];
    for _ in 0..250 {
        add(cases, "t", &random.text(&pieces, 40));
    }
}

fn add_names(cases: &mut Cases, random: &mut Random) {
    let gaps = [
        " ", "  ", "\t", " \t", "\t ", "\x0B", "\x0C\r", "", "\0", "\x1F",
    ];
    let edges = ["", " ", "\t", " \r\x0B", "\0"];
    add_spaced_names(cases, &gaps, &edges);
    for operand in [
        "a", "ab", "A", ".L0", "a0", "x", "'a'", "5", "a.b", "a:b", "\"a\"",
    ] {
        for name in [
            "a", "ab", "A", ".L0", "a0", "x", "'a'", "5", "a.b", "", "a,b", "\"a\"",
        ] {
            add_name(cases, operand, name);
        }
    }
    for same in every_byte("a@b") {
        for name in [same.as_str(), "a b", "ab"] {
            add_name(cases, &same, name);
        }
    }
    add_random_names(cases, random, &gaps);
}

/// Two words with every gap between them in the operand and in the name,
/// then three words with the first gaps.
fn add_spaced_names(cases: &mut Cases, gaps: &[&str], edges: &[&str]) {
    for gap in gaps {
        for edge in edges {
            for operand in [format!("{edge}a{gap}b{edge}"), format!("a{gap}b{edge}")] {
                for named in gaps {
                    add_name(cases, &operand, &format!("a{named}b"));
                }
            }
        }
    }
    for (first, second) in gaps.iter().flat_map(|g| gaps.iter().map(move |h| (g, h))) {
        let spaced = format!("a{first}b{second}c");
        for name in [spaced.as_str(), "a b c", "a  b c", "a b", "abc"] {
            add_name(cases, &spaced, name);
        }
        add_name(cases, "a \tb  c", &spaced);
    }
}

/// Names made of random words, asked for with the gaps as in the name, with
/// single spaces, or with other gaps.
fn add_random_names(cases: &mut Cases, random: &mut Random, gaps: &[&str]) {
    for _ in 0..150 {
        let words: Vec<String> = (0..1 + random.below(3))
            .map(|_| random.text(&["a", "b", "_", ".", "1", "Z"], 6))
            .collect();
        let name = words.join(random.pick(gaps));
        let other = words.join(random.pick(gaps));
        for operand in [words.join(" "), name.clone(), other] {
            add_name(cases, &operand, &name);
        }
    }
}
