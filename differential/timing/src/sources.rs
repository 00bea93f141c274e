//! The sources that are timed: of every kind of line, each within the limits.
//!
//! Nothing here is random: every run makes the same texts.

use std::fmt::Write;
use std::{fs, io};

use crate::agreement::{accepted, agree};
use crate::ours::TEXT_LIMIT;

const LABEL_LIMIT: usize = 1024;
const LABEL_WORD_LIMIT: usize = 1024;
const EQUATE_LIMIT: usize = 256;
const ITEM_LIMIT: usize = 2048;
const WORD_LIMIT: usize = 16384;

/// How many times as fast as the reference ours is to be on a source.
#[derive(Clone, Copy, PartialEq)]
pub enum Goal {
    /// On mixes of everything and on the examples.
    Ordinary,
    /// On sources of one kind of line alone, and on those made to be slow.
    Worst,
    /// None: a file, or what is measured to be known.
    Open,
    /// None: the reference does not take it so, and ours is measured alone.
    Alone,
}

impl Goal {
    pub fn times(self) -> Option<f64> {
        match self {
            Goal::Ordinary => Some(10.0),
            Goal::Worst => Some(5.0),
            Goal::Open | Goal::Alone => None,
        }
    }
}

/// A source by its name, with what stands in it.
pub struct Source {
    pub name: String,
    pub what: String,
    pub goal: Goal,
    pub text: String,
}

/// A name, what stands in it, its goal, and how it is made.
type Kind = (&'static str, &'static str, Goal, fn() -> String);

#[rustfmt::skip]
const KINDS: &[Kind] = &[
    ("mix", "a mix of instructions, data, labels and comments, 60 KB", Goal::Ordinary, || mix(60_000)),
    ("mix-4k", "the same mix, 4 KB", Goal::Ordinary, || mix(4_000)),
    ("compass", "the example `compass.s`", Goal::Ordinary, || include_str!("../../../examples/compass.s").to_string()),
    ("grid", "the example `grid.s`", Goal::Ordinary, || include_str!("../../../examples/grid.s").to_string()),
    ("names", "the example `names.s`", Goal::Ordinary, || include_str!("../../../examples/names.s").to_string()),
    ("panel", "the example `panel.s`", Goal::Ordinary, || include_str!("../../../examples/panel.s").to_string()),
    ("instructions", "2,048 instructions", Goal::Worst, instructions),
    ("pseudos", "2,048 pseudo-instructions", Goal::Worst, pseudos),
    ("pseudo-space", "pseudo-instructions with long white space", Goal::Worst, pseudo_space),
    ("random", "2,048 `random`, of eight words each", Goal::Worst, random),
    ("print-str", "1,489 `print_str`, of eleven words each", Goal::Worst, print_str),
    ("li", "2,048 `li` of numbers of 32 bits", Goal::Worst, li_of_numbers),
    ("la", "1,024 labels, 2,048 `la` of them", Goal::Worst, la_of_labels),
    ("la-spaced", "1,024 labels with a space, 2,048 `la` of the last by a tab", Goal::Worst, la_spaced),
    ("la-spaced-long", "`la` of a label of 1,200 bytes with a space, by a tab", Goal::Worst, la_spaced_long),
    ("li-equates", "256 equates, 2,048 `li` of them", Goal::Worst, li_of_equates),
    ("decimal-bytes", "decimal bytes", Goal::Worst, decimal_bytes),
    ("hex-bytes", "hexadecimal bytes", Goal::Worst, hex_bytes),
    ("tight-bytes", "bytes of one digit, no blanks", Goal::Worst, tight_bytes),
    ("words", "words, decimal and hexadecimal", Goal::Worst, words),
    ("odd-numbers", "numbers with signs and odd bases", Goal::Worst, odd_numbers),
    ("long-numbers", "numbers of 200 digits, zeros before them", Goal::Worst, long_numbers),
    ("strings", "strings", Goal::Worst, strings),
    ("strings-marks", "strings with escapes and punctuation", Goal::Alone, strings_marks),
    ("long-string", "one string to the end of the text", Goal::Worst, long_string),
    ("long-string-escape", "one string to the end of the text, an escape at its end", Goal::Alone, long_string_escape),
    ("long-string-escapes", "one string of escapes to the end of the text", Goal::Alone, long_string_escapes),
    ("directives", "sections, alignments, spaces, `.globl`", Goal::Worst, directives),
    ("comments", "comments", Goal::Worst, comments),
    ("long-comment", "one comment to the end of the text", Goal::Worst, long_comment),
    ("blank-lines", "blank lines", Goal::Worst, blank_lines),
    ("spaces", "one line of blanks", Goal::Worst, spaces),
    ("white-space", "instructions with long white space", Goal::Worst, white_space),
    ("labels", "1,024 labels, names in order", Goal::Worst, labels_in_order),
    ("labels-first", "1,024 long labels that differ in their first bytes", Goal::Worst, labels_first),
    ("labels-last", "1,024 long labels that differ at the end", Goal::Worst, labels_last),
    ("labels-shuffled", "1,024 long labels that differ at the end, out of order", Goal::Worst, labels_shuffled),
    ("labels-short", "1,024 labels of one to three bytes", Goal::Worst, labels_short),
    ("last-again", "1,024 labels, the last one again and again", Goal::Worst, last_again),
    ("backwards", "1,024 labels, then all from the last to the first", Goal::Worst, backwards),
    ("label-words", "1,024 labels, 1,024 words of them", Goal::Worst, label_words),
    ("equates", "256 equates by `.equ`", Goal::Worst, equates),
    ("assignments", "256 equates by `name = expr`, long ones", Goal::Worst, assignments),
    ("equates-reverse", "256 equates, each of the one below and 14 numbers", Goal::Worst, equates_reverse),
    ("equates-last", "256 equates, each of 14 numbers and the one below", Goal::Worst, equates_last),
    ("equates-steps", "64 equates in reverse, 192 of all of these, one more found in each round", Goal::Worst, equates_steps),
    ("one-bucket", "one bucket, 1,024 labels of four bytes", Goal::Worst, one_bucket),
    ("one-bucket-again", "one bucket, the first label again and again", Goal::Worst, one_bucket_again),
    ("one-bucket-alike", "one bucket, labels that end alike, the first again and again", Goal::Worst, one_bucket_alike),
    ("one-bucket-la", "one bucket, 2,048 `la` of the first label", Goal::Worst, one_bucket_la),
    ("one-bucket-words", "one bucket, 1,024 words of the first label", Goal::Worst, one_bucket_words),
    ("one-bucket-terms", "one bucket, equates of the first label in every term", Goal::Worst, one_bucket_terms),
    ("one-bucket-li", "one bucket, 256 equates, 2,048 `li` of the first", Goal::Worst, one_bucket_li),
    ("one-bucket-reverse", "one bucket, 256 equates, each of the one below", Goal::Worst, one_bucket_reverse),
    ("empty", "an empty text: the buffers' clearing alone", Goal::Open, String::new),
];

/// The names of all kinds, in the tables' order.
pub fn names() -> Vec<String> {
    KINDS.iter().map(|kind| kind.0.to_string()).collect()
}

/// The chosen sources, or all kinds. Both contenders accept each, or ours alone.
pub fn sources(chosen: &[&str]) -> io::Result<Vec<Source>> {
    let all = names();
    let chosen = match chosen {
        [] => all.iter().map(String::as_str).collect(),
        _ => chosen.to_vec(),
    };
    let made: io::Result<Vec<Source>> = chosen.into_iter().map(source).collect();
    let made = made?;
    made.iter().try_for_each(check)?;
    Ok(made)
}

fn check(source: &Source) -> io::Result<()> {
    let checked = match source.goal {
        Goal::Alone => accepted(&source.text),
        _ => agree(&source.text),
    };
    checked.map_err(|why| io::Error::other(format!("{}: {why}", source.name)))
}

/// A kind by its name, or else a file by its path.
pub fn source(name: &str) -> io::Result<Source> {
    let (what, goal, text) = match KINDS.iter().find(|kind| kind.0 == name) {
        Some(kind) => (kind.1.to_string(), kind.2, kind.3()),
        None => (format!("`{}`", file_name(name)), Goal::Open, read(name)?),
    };
    Ok(Source {
        name: name.to_string(),
        what,
        goal,
        text,
    })
}

fn read(path: &str) -> io::Result<String> {
    fs::read_to_string(path).map_err(|error| {
        io::Error::new(
            error.kind(),
            format!("{path}: no kind of source, and as a file: {error}"),
        )
    })
}

fn file_name(path: &str) -> &str {
    path.rsplit('/').next().unwrap_or(path)
}

// ---- lines

/// Lines one after the other, while the text stays within a size.
fn filled(size: usize, line: impl Fn(usize) -> String) -> String {
    extended(String::new(), size, line)
}

/// The same behind what there is.
fn extended(mut text: String, size: usize, line: impl Fn(usize) -> String) -> String {
    for k in 0.. {
        let next = line(k);
        if text.len() + next.len() > size {
            break;
        }
        text.push_str(&next);
    }
    text
}

/// A text of the limit's length: a beginning, the same again and again, an end.
fn to_the_end(beginning: &str, again: &str, end: &str) -> String {
    let room = TEXT_LIMIT - beginning.len() - end.len();
    let middle: String = again.chars().cycle().take(room).collect();
    format!("{beginning}{middle}{end}")
}

/// So many lines.
fn counted(count: usize, line: impl Fn(usize) -> String) -> String {
    (0..count).map(line).collect()
}

// ---- text and data together

fn mix(size: usize) -> String {
    filled(size, |k| {
        format!(
            "# row {k}\n\
             row_{k}:\n    \
             li a0, {}\n    \
             la a1, cell_{k}\n    \
             push ra # keep\n    \
             addi t0, t0, 1\n    \
             beq a0, a1, row_{k}\n\
             .data\n\
             cell_{k}: .word {k}, row_{k}\n    \
             .byte 1, 2, 3, 0x7f\n    \
             .align 4\n\
             .text\n",
            k * 77
        )
    })
}

// ---- text

fn instructions() -> String {
    counted(ITEM_LIMIT, |k| match k % 4 {
        0 => "    addi t0, t0, 1\n".to_string(),
        1 => format!("    lw a{}, {}(sp)\n", k % 8, k % 2048),
        2 => format!("    beq a0, a1, {}\n", k % 1024 * 4),
        _ => "    add a0, a1, a2\n".to_string(),
    })
}

fn pseudos() -> String {
    counted(ITEM_LIMIT, |k| match k % 4 {
        0 => format!("    li a0, {}\n", k % 2048),
        1 => format!("    li a1, 0x{:x}\n", k * 65_599),
        2 => "    push ra\n".to_string(),
        _ => "    pop ra\n".to_string(),
    })
}

fn pseudo_space() -> String {
    let space = " \t".repeat(20);
    filled(TEXT_LIMIT, |k| match k % 3 {
        0 => format!("li {space}a0{space},{space}{}{space}\n", k % 2048),
        1 => format!("li {space}a1{space},{space}0x{:x}{space}\n", k * 65_599),
        _ => format!("push {space}ra{space}\n"),
    })
}

fn random() -> String {
    counted(ITEM_LIMIT, |k| format!("    random a{}\n", k % 8))
}

fn print_str() -> String {
    "message:\n".to_string() + &counted(WORD_LIMIT / 11, |_| "    print_str message\n".to_string())
}

/// Numbers beyond 12 bits, with lower parts of either sign.
fn li_of_numbers() -> String {
    counted(ITEM_LIMIT, |k| {
        format!("    li a0, {}\n", 4096 + k * 2_096_127)
    })
}

fn la_of_labels() -> String {
    counted(LABEL_LIMIT, |k| {
        format!(
            "label_{k}:\n    la a0, label_{k}\n    la a1, label_{}\n",
            LABEL_LIMIT - 1 - k
        )
    })
}

/// A pseudo's white space is made one space before its label is looked up: among all labels, one after the other.
fn la_spaced() -> String {
    let labels = counted(LABEL_LIMIT, |k| format!("a {k}:\n"));
    let last = LABEL_LIMIT - 1;
    labels + &counted(ITEM_LIMIT, |_| format!("    la a0, a\t{last}\n"))
}

fn la_spaced_long() -> String {
    let name = "b".repeat(1198);
    extended(format!("a {name}:\n"), TEXT_LIMIT, |_| {
        format!("    la a0, a\t{name}\n")
    })
}

fn li_of_equates() -> String {
    let lines = counted(ITEM_LIMIT, |k| {
        format!("    li a0, size_{}\n", k * 7 % EQUATE_LIMIT)
    });
    equates() + &lines
}

// ---- data

fn data(line: impl Fn(usize) -> String) -> String {
    extended(".data\n".to_string(), TEXT_LIMIT, line)
}

/// A directive with eight operands.
fn operands(directive: &str, k: usize, operand: impl Fn(usize) -> String) -> String {
    let list: Vec<String> = (0..8).map(|i| operand(8 * k + i)).collect();
    format!("    {directive} {}\n", list.join(", "))
}

fn decimal_bytes() -> String {
    data(|k| operands(".byte", k, |i| (i % 256).to_string()))
}

fn hex_bytes() -> String {
    data(|k| operands(".byte", k, |i| format!("0x{:02x}", i % 256)))
}

fn tight_bytes() -> String {
    data(|k| format!(".byte {}{}\n", "1,2,3,4,5,6,7,8,".repeat(7), k % 10))
}

fn words() -> String {
    data(|k| match k % 2 {
        0 => operands(".word", k, |i| (i * 1_000_003 % 4_294_967_291).to_string()),
        _ => operands(".word", k, |i| {
            format!("0x{:08x}", i * 1_000_003 % 4_294_967_291)
        }),
    })
}

fn odd_numbers() -> String {
    const ODD: [&str; 12] = [
        "-1",
        "+5",
        "-0x1F",
        "+0X7f",
        "0b1010",
        "-0B11",
        "0x-1",
        "--7",
        "'a'",
        "'\\n'",
        "-2147483648",
        "007",
    ];
    data(|k| operands(".word", k, |i| ODD[i % ODD.len()].to_string()))
}

fn long_numbers() -> String {
    data(|k| format!(".word {k:0200}\n"))
}

fn strings() -> String {
    data(|k| match k % 3 {
        0 => format!("    .asciz \"row {k} of the display\"\n"),
        1 => "    .ascii \"temperature, pressure and height\"\n".to_string(),
        _ => "    .string \"\"\n".to_string(),
    })
}

fn strings_marks() -> String {
    data(|k| match k % 3 {
        0 => format!("    .asciz \"12:40 #{k};ok\\n\"\n"),
        1 => "    .ascii \"\\ttemperature: 21\\260C; pressure # hPa\\r\\n\"\n".to_string(),
        _ => format!("    .string \"\\\"{k}\\\" \\\\ \\1\\08\\377\" # as it is said\n"),
    })
}

const LONG_STRING: (&str, &str) = (".data\n.ascii \"", "temperature, pressure and height, ");

fn long_string() -> String {
    to_the_end(LONG_STRING.0, LONG_STRING.1, "\"\n")
}

fn long_string_escape() -> String {
    to_the_end(LONG_STRING.0, LONG_STRING.1, "\\n\"\n")
}

/// Of an even number of bytes, so that no escape is parted.
fn long_string_escapes() -> String {
    to_the_end(LONG_STRING.0, "\\n\\\"", "\"\n")
}

fn directives() -> String {
    const LINES: [&str; 10] = [
        ".data\n",
        "    .align 4\n",
        "    .space 3\n",
        ".globl start\n",
        ".section .rodata\n",
        "    .zero 2\n",
        ".type start, @function\n",
        ".bss\n",
        "    .skip 8\n",
        ".text\n",
    ];
    filled(TEXT_LIMIT, |k| LINES[k % LINES.len()].to_string())
}

// ---- what is passed over

fn comments() -> String {
    filled(TEXT_LIMIT, |k| match k % 2 {
        0 => "# a comment that runs over the whole line, as most do\n".to_string(),
        _ => "    ; another: with a colon, an equals sign = and a quote '\n".to_string(),
    })
}

fn long_comment() -> String {
    to_the_end("# ", "a comment that does not end, ", "\n")
}

fn blank_lines() -> String {
    filled(TEXT_LIMIT, |_| "\n".to_string())
}

fn spaces() -> String {
    to_the_end("", " \t", "\n")
}

fn white_space() -> String {
    let space = " \t".repeat(40);
    filled(TEXT_LIMIT, |_| {
        format!("{space}addi{space}t0,{space}t0,{space}1{space}\n")
    })
}

// ---- labels

fn label_lines(name: impl Fn(usize) -> String) -> String {
    counted(LABEL_LIMIT, |k| format!("{}:\n", name(k)))
}

fn in_order(k: usize) -> String {
    format!("label_{k:04}")
}

fn labels_in_order() -> String {
    label_lines(in_order)
}

fn labels_first() -> String {
    label_lines(|k| format!("{k:04x}_then_the_same_in_every_name_to_its_end"))
}

fn labels_last() -> String {
    label_lines(|k| format!("the_same_in_every_name_from_the_start_{k:04x}"))
}

/// Ten bits reversed: halves that are merged always take turns.
fn labels_shuffled() -> String {
    let start = "the_same_in_every_name_from_the_start_and_for_a_long_way_";
    label_lines(|k| format!("{start}{:04x}", (k as u16).reverse_bits() >> 6))
}

fn labels_short() -> String {
    label_lines(|k| format!("{k:x}"))
}

fn last_again() -> String {
    let name = |k: usize| format!("n{k:03x}_a_long_label");
    extended(label_lines(name), TEXT_LIMIT, |_| {
        format!("{}:\n", name(LABEL_LIMIT - 1))
    })
}

fn backwards() -> String {
    labels_in_order() + &label_lines(|k| in_order(LABEL_LIMIT - 1 - k))
}

fn label_words() -> String {
    let mut text = ".data\n".to_string();
    for k in 0..LABEL_WORD_LIMIT {
        writeln!(
            text,
            "{}: .word {}",
            in_order(k),
            in_order(LABEL_LIMIT - 1 - k)
        )
        .expect("a String takes what is written");
    }
    text
}

// ---- equates

fn equates() -> String {
    counted(EQUATE_LIMIT, |k| format!(".equ size_{k}, {k} + 4\n"))
}

fn assignments() -> String {
    let terms = " + 1".repeat(50);
    counted(EQUATE_LIMIT, |k| format!("size_{k} = . - {k}{terms}\n"))
}

/// Every equate but the last waits for the one below.
fn equates_reverse() -> String {
    let numbers: String = (1..=14).map(|n| format!(" + {n}")).collect();
    reverse(|k| format!("e{k} = e{}{numbers}\n", k + 1))
}

/// The same, and the name stands last.
fn equates_last() -> String {
    let numbers: String = (1..=14).map(|n| format!("{n} + ")).collect();
    reverse(|k| format!("e{k} = {numbers}e{}\n", k + 1))
}

fn reverse(line: impl Fn(usize) -> String) -> String {
    counted(EQUATE_LIMIT, line) + &format!("e{EQUATE_LIMIT}: nop\n")
}

/// An expression that waits at its next term in every round.
fn equates_steps() -> String {
    const STEPS: usize = 64;
    let terms: String = (0..STEPS).rev().map(|n| format!("+s{n}")).collect();
    let users = counted(EQUATE_LIMIT - STEPS, |k| format!("u{k}={}\n", &terms[1..]));
    users + &counted(STEPS, |k| format!("s{k}=s{}\n", k + 1)) + &format!("s{STEPS}:\n")
}

// ---- names of one bucket

/// The bucket of a name in our indexes over labels and equates, of 1,024. Nothing holds this
/// to the index's definition, which it repeats: change both together.
fn bucket(name: &[u8]) -> u32 {
    const FACTOR: u32 = 2_654_435_761;
    let hash = name.chunks(2).fold(0u32, |h, two| {
        let pair = u32::from(two[0]) + 256 * two.get(1).map_or(0, |&b| u32::from(b));
        h.wrapping_mul(FACTOR).wrapping_add(pair)
    });
    hash.wrapping_mul(FACTOR) >> 22
}

/// As many names of bucket 0 as labels are taken, found by trying a letter and
/// three letters or digits before one and the same end.
fn bucket_names(end: &str) -> Vec<String> {
    (0..36u32.pow(4))
        .map(|k| format!("{}{end}", four_digits(k)))
        .filter(|name| name.starts_with(|first: char| first.is_ascii_alphabetic()))
        .filter(|name| bucket(name.as_bytes()) == 0)
        .take(LABEL_LIMIT)
        .collect()
}

/// A number's last four digits in base 36.
fn four_digits(k: u32) -> String {
    (0..4)
        .filter_map(|place| char::from_digit(k / 36u32.pow(place) % 36, 36))
        .collect()
}

fn one_bucket() -> String {
    bucket_lines(&bucket_names(""))
}

fn bucket_lines(names: &[String]) -> String {
    label_lines(|k| names[k].clone())
}

/// The first name is the last one on the bucket's way: each time it is
/// defined again, all the others are passed.
fn first_again(names: &[String]) -> String {
    extended(bucket_lines(names), TEXT_LIMIT, |_| {
        format!("{}:\n", names[0])
    })
}

fn one_bucket_again() -> String {
    first_again(&bucket_names(""))
}

/// Our names are compared from the last byte on, so that names which end alike
/// cost more. A longer end would leave room for fewer lines.
fn one_bucket_alike() -> String {
    first_again(&bucket_names("_end"))
}

fn one_bucket_la() -> String {
    let names = bucket_names("");
    let lines = counted(ITEM_LIMIT, |_| format!("la a0, {}\n", names[0]));
    bucket_lines(&names) + &lines
}

fn one_bucket_words() -> String {
    let names = bucket_names("");
    let lines = counted(LABEL_WORD_LIMIT, |_| format!(".word {}\n", names[0]));
    bucket_lines(&names) + ".data\n" + &lines
}

fn one_bucket_terms() -> String {
    let names = bucket_names("");
    let terms = vec![names[0].as_str(); 45].join("+");
    bucket_lines(&names) + &counted(EQUATE_LIMIT, |k| format!("{k}={terms}\n"))
}

fn one_bucket_li() -> String {
    let names = bucket_names("");
    let values = counted(EQUATE_LIMIT, |k| format!("{}={k}\n", names[k]));
    values + &counted(ITEM_LIMIT, |_| format!("li a0, {}\n", names[0]))
}

/// Names and rounds together: every round looks each pending name up.
fn one_bucket_reverse() -> String {
    let names = bucket_names("");
    let values = counted(EQUATE_LIMIT, |k| format!("{}={}\n", names[k], names[k + 1]));
    values + &format!("{}:\n", names[EQUATE_LIMIT])
}
