//! The model against what the papers say outright: document 01's twelve cases,
//! the smallest inputs of docs/DECISIONS.md, lines for each refusal from 2 to
//! 20, and change requests W-201 (strings) and W-202 (li by name).

use compare::generate::{Generator, Kind};
use compare::model::{assemble, field, Answer, Lent, ITEM_SIZE};
use compare::pool::pool;

fn answer(text: &[u8], base: u32, lent: Lent) -> Answer {
    assemble(text, base, lent).0
}

fn full(text: &str) -> Answer {
    answer(text.as_bytes(), 0, Lent::FULL)
}

fn words(text: &str) -> Vec<u32> {
    let answer = full(text);
    assert_eq!(answer.number, 0, "{text}");
    answer.words
}

fn data(text: &str) -> Vec<u8> {
    let answer = full(text);
    assert_eq!(answer.number, 0, "{text}");
    answer.data
}

fn refused(text: &str, number: u8, line: u32) {
    let given = full(text);
    assert_eq!((given.number, given.line), (number, line), "{text:?}");
    let all = Answer {
        number,
        line,
        ..Answer::default()
    };
    assert_eq!(given, all, "{text:?}: every count 0, nothing in a buffer");
}

#[test]
fn twelve_cases() {
    let empty = full("");
    assert_eq!(empty.number, 0);
    assert_eq!(empty.counts.data_base, 0x1000);
    assert_eq!(
        empty.counts.words + empty.counts.data_bytes + empty.counts.bss_size,
        0
    );
    assert_eq!(words("li a0, 2047"), [0x7FF00513]);
    assert_eq!(words("li a0, 2048"), [0x00001537, 0x80050513]);
    assert_eq!(words("li a0, 0x7FFFF800"), [0x80000537, 0x80050513]);
    assert_eq!(words("li a0, 4294967295"), [0xFFF00513]);
    refused("n = 4294967295\nli a0, n", 19, 1);
    assert_eq!(words("push ra"), [0xFFC10113, 0x00112023]);
    assert_eq!(words("pop ra"), [0x00012083, 0x00410113]);
    assert_eq!(data(".data\n.byte 1\n.align 3").len(), 1);
    assert_eq!(data(".data\n.byte 1,1\n.align 3").len(), 4);
    assert_eq!(data(".data\n.byte 1,1,1\n.align 3").len(), 5);
    assert_eq!(data(".data\n.byte --5"), [5]);
    refused(".data\n.byte 256", 7, 1);
    refused(".data\n.dword -9223372036854775808", 6, 1);
    assert_eq!(
        data(".data\n.dword +-9223372036854775808"),
        [0, 0, 0, 0, 0, 0, 0, 0x80]
    );
    let chain = full("a = b+1\nb = c+1\nc = 5");
    let field = |record: usize, at: usize| chain.equates[24 * record + at];
    assert_eq!([field(0, 12), field(1, 12), field(2, 12)], [7, 6, 5]);
    assert_eq!([field(0, 20), field(1, 20), field(2, 20)], [3, 2, 1]);
    assert_eq!(chain.counts.evaluations, 6);
    refused("a = b\nb = a", 17, 0);
    assert_eq!(
        data(".data\nt: .byte 1\nt: .byte 2\n.word t"),
        [1, 2, 1, 0x10, 0, 0]
    );
}

#[test]
fn decided_refusals() {
    for (text, number, line) in [
        (".data\n.byte -1", 7, 1),
        ("push x-0", 18, 0),
        ("push ra\0", 18, 0),
        ("n = 0x", 16, 0),
        ("n = u + 5f", 16, 0),
        ("n = u + 5g", 17, 0),
        (".data\n.space 1,2", 6, 1),
        (".equ '', 5\nli a0, ''", 19, 1),
        ("a = b\na = 1", 15, 0),
        ("a = u 5", 17, 0),
        ("a = 5 u", 16, 0),
        ("a = 9223372036854775807+1+u", 24, 0),
        ("a = u+9223372036854775807+1", 17, 0),
        ("a = 9223372036854775807+1 5", 24, 0),
        ("a = 9223372036854775807+1 (", 16, 0),
        (".data\nx: .data", 10, 1),
        (".bss\nx: .data", 11, 1),
        (".section", 2, 0),
        ("a  b = 1\nli a0, a  b", 19, 1),
        ("a  b: la a0, a  b", 20, 0),
        ("n = 5\x0b+1", 16, 0),
        (".data\n.word y\ny = 5", 13, 1),
        ("y = 5\nla a0, y", 20, 1),
        ("y:\nli a0, y", 19, 1),
        ("nop\n.section", 2, 1),
        (".data\n.skip 1", 10, 1),
        (".bss\n.byte 1", 12, 1),
        (".data\n.words 5", 8, 1),
        (".data\n.float 1", 21, 1),
        ("x = a\na = b\na = u\nb = a", 17, 0),
        (".data\n.word u\na = u", 13, 1),
        ("push 5", 18, 0),
        ("li z, u", 18, 0),
        ("x: print_str_ln x", 21, 0),
        ("x: random_bytes x, 4", 21, 0),
    ] {
        refused(text, number, line);
    }
}

#[test]
fn decided_otherwise() {
    assert_eq!(data(".data\n.byte '''"), [39]);
    assert_eq!(data(".data\n.byte '\\'"), [92]);
    assert_eq!(words(".equ n 5,6\nli a0, n 5"), [0x00000537, 0x00650513]);
    assert_eq!(words("a b = 1\nli a0, a  b"), [0x00000537, 0x00150513]);
    assert_eq!(
        words(".equ 99999999999, 5\nli a0, 99999999999"),
        [0x00000537, 0x00550513]
    );
    assert_eq!(words("x: .data"), [0]);
    assert_eq!(words("push"), [0]);
    assert_eq!(full("a b: la a0, a  b").number, 0);
    assert_eq!(answer(b".bss\n.align 2", 1, Lent::FULL).counts.bss_size, 0);
    assert_eq!(full(".data\n.byte 1\n.bss\n.align 4").counts.bss_size, 0);
    let dot = full("nop\n.equ ., 9\nn = .");
    assert_eq!(
        dot.equates[24 + 12],
        4,
        "`.` is the place, also where an equate has that name"
    );
    let again = full("a:\na:");
    assert_eq!(
        again.labels,
        [3, 0, 0, 0, 1, 0, 0, 0, 0, 0, 0, 0, 1, 0, 0, 0]
    );
}

#[test]
fn bytes_above_127() {
    for (text, line) in [(&b"\n\x80"[..], 1), (b".section\n\x80", 1), (b"# \xFF", 0)] {
        let given = answer(text, 0, Lent::FULL);
        assert_eq!((given.number, given.line), (1, line));
    }
}

#[test]
fn what_is_lent() {
    let labels = |labels| {
        answer(
            b"a:",
            0,
            Lent {
                labels,
                ..Lent::FULL
            },
        )
        .number
    };
    assert_eq!([labels(15), labels(16), labels(31)], [45, 0, 0]);
    let data = |data| answer(b".data\n.word x, ?", 0, Lent { data, ..Lent::FULL }).number;
    assert_eq!([data(3), data(4)], [42, 8]);
    let align = answer(
        b".data\n.byte 1\n.align 2",
        0,
        Lent {
            data: 1,
            ..Lent::FULL
        },
    );
    assert_eq!((align.number, align.line), (42, 2));
    let room = |labels| {
        answer(
            b"b: .equ",
            0,
            Lent {
                labels,
                ..Lent::FULL
            },
        )
        .number
    };
    assert_eq!([room(0), room(16)], [45, 5]);
}

/// The lines that are built for a refusal get it.
#[test]
fn built_for_a_refusal() {
    for (number, lines) in differential::sources::ERRORS {
        let given = full(&lines.replace('@', "1"));
        assert_eq!(u32::from(given.number), number, "{lines}");
    }
}

/// An alignment never goes back, whatever the place and the number.
#[test]
fn alignments_go_forward() {
    for place in 0..200 {
        for alignment in 1..300 {
            let given = full(&format!(".bss\n.space {place}\n.align {alignment}"));
            assert!(given.counts.bss_size >= place, "{place} {alignment}");
        }
    }
}

// ---------- W-201 ----------

/// The bytes of the line in data.
fn stored(line: &str) -> Vec<u8> {
    data(&format!(".data\n{line}"))
}

/// The line in data gets that number.
fn refused_in_data(line: &str, number: u8) {
    refused(&format!(".data\n{line}"), number, 1);
}

/// "Teams want `"12:40 #3;ok\n"` on the screen."
#[test]
fn strings_with_punctuation() {
    for (line, bytes) in [
        (r#".ascii "12:40 #3;ok\n""#, &b"12:40 #3;ok\n"[..]),
        (r#"x: .asciz "12:40 #3;ok\n" # "x"#, b"12:40 #3;ok\n\0"),
        (r#"x:.string"12:40 #3;ok\n";:"#, b"12:40 #3;ok\n\0"),
        (r#".asciz ":""#, b":\0"),
        (r##".ascii "#""##, b"#"),
        (r#"x: .ascii ";" ;:"""#, b";"),
        (r#".ascii """#, b""),
        (r#".string """#, b"\0"),
        (r#".ascii "a,b='c'""#, b"a,b='c'"),
        (".ascii\t\x0b\x0c\r \"a\"\t\x0b\x0c\r ", b"a"),
        (
            "\t: \r.ascii\"\t\x0b\x0c\r \0\x7f\"",
            b"\t\x0b\x0c\r \0\x7f",
        ),
    ] {
        assert_eq!(stored(line), bytes, "{line}");
    }
}

/// "Escapes follow the GNU as manual: `\b \f \n \r \t \\ \"` and one to three
/// octal digits up to 377"; any other byte behind a backslash is 9.
#[test]
fn escapes() {
    let known = *br#"bfnrt\""#;
    for (letter, byte) in known.into_iter().zip(*b"\x08\x0c\n\r\t\\\"") {
        let line = format!(".ascii \"{}{}\"", '\\', letter as char);
        assert_eq!(stored(&line), [byte], "{line}");
    }
    let others = (0..128u8).filter(|b| !known.contains(b) && !b.is_ascii_digit() && *b != b'\n');
    for letter in others {
        refused_in_data(&format!(".ascii \"{}{}\"", '\\', letter as char), 9);
    }
}

/// 8 and 9 are digits too, and three digits are the most: the fourth is a byte
/// of its own.
#[test]
fn octals() {
    let value = |digits: &str| digits.bytes().fold(0, |v, d| 8 * v + u32::from(d - b'0'));
    for (width, count) in [(1, 10), (2, 100), (3, 1000)] {
        for number in 0..count {
            let digits = format!("{number:0width$}");
            let line = |behind: &str| format!(".ascii \"\\{digits}{behind}\"");
            match u8::try_from(value(&digits)) {
                Ok(byte) => {
                    assert_eq!(stored(&line("")), [byte], "{digits}");
                    assert_eq!(stored(&line("a")), [byte, b'a'], "{digits}");
                }
                Err(_) => refused_in_data(&line(""), 9),
            }
        }
    }
    assert_eq!(stored(r#".ascii "\8""#), [8]);
    assert_eq!(stored(r#".ascii "\08""#), [8]);
    assert_eq!(stored(r#".ascii "\99""#), [81]);
    assert_eq!(stored(r#".ascii "\377""#), [255]);
    assert_eq!(stored(r#".ascii "\1234""#), [83, b'4']);
    assert_eq!(stored(r#".asciz "\0018""#), [1, b'8', 0]);
    refused_in_data(r#".ascii "\378""#, 9);
    refused_in_data(r#".ascii "\400""#, 9);
    refused_in_data(r#".ascii "\4000""#, 9);
}

/// "Another escape, an octal above 377, no closing quote, or text beside the
/// string but for a comment after it, is 9."
#[test]
fn malformed_strings() {
    for operand in [
        "",
        " a",
        r#" ""#,
        r#" "a"#,
        r#" "\"#,
        r#" "\""#,
        r#" "a\""#,
        r#" """"#,
        r#" "a"b"#,
        r#" "a" "b""#,
        r#" "a","b""#,
        r#" "a" \"#,
        r#" x"a""#,
        r#" 'a'"#,
        r#" "a" :"#,
        r#" "":"#,
        r#" "" x: .byte 1"#,
        r#"# "a""#,
        r#" ;"a""#,
        r#" "\q" # "a""#,
        r#" "a # b"#,
        r#"z "a""#,
        r#"5 "a""#,
        r#"s "a""#,
        "\0\"a\"",
    ] {
        for directive in [".ascii", ".asciz", ".string"] {
            refused_in_data(&format!("{directive}{operand}"), 9);
            refused_in_data(&format!("x: {directive}{operand}"), 9);
        }
    }
}

/// Which lines have the new rule: "in the data section", "after an optional
/// label whose colon precedes the first quote".
#[test]
fn lines_of_strings() {
    for (line, number) in [
        (r#".ascii:"a""#, 10),
        (r#"x: y: .ascii ":""#, 10),
        (".ascii a:b", 10),
        (r#".section data: .ascii ":""#, 3),
        (r#": .ascii:"a""#, 9),
    ] {
        refused_in_data(line, number);
    }
    // A label alone, as before.
    let label = full(".data\n.ascii :");
    assert_eq!((label.number, label.counts.labels), (0, 1));
    assert_eq!(label.counts.data_bytes, 0);
    // A label whose name is not what stands before the last colon.
    let label = full(".data\nx: .ascii \"y: .ascii \"");
    assert_eq!(label.labels[..8], [6, 0, 0, 0, 1, 0, 0, 0]);
    assert_eq!(label.data, b"y: .ascii ");
    // The first quote stands inside the label: document 01's rule whole.
    assert_eq!(stored(r#"": .ascii "a\n""#), br"a\n");
    assert_eq!(stored(r#"": .ascii "a" "b""#), br#"a" "b"#);
    assert_eq!(stored(r#"x": .asciz ":""#), b":\0");
    refused_in_data(r##"": .ascii "#""##, 9);
    refused_in_data(r#"": .ascii "a" b"#, 9);
    // Elsewhere quotes protect nothing.
    refused(".bss\n.ascii \"a\"", 12, 1);
    refused(".bss\n.ascii \":\"", 11, 1);
    let text = full(".ascii \"a:b#c\"");
    assert_eq!(
        (text.number, text.counts.labels, text.counts.items),
        (0, 1, 1)
    );
    refused(".section .rodata\n.ascii \"\\q\"", 9, 1);
    assert_eq!(data(".section srodata\n.ascii \"a:b\""), b"a:b");
    // A byte above 127 comes before all.
    let above = answer(b".data\n.ascii \"\\q\"\n.ascii \"\xC8\"", 0, Lent::FULL);
    assert_eq!((above.number, above.line), (1, 2));
}

/// A label's 45, then 9, then 42 by what is stored, its 0 included.
#[test]
fn what_is_lent_to_strings() {
    let given = |line: &str, labels: usize, data: usize| {
        let lent = Lent {
            labels,
            data,
            ..Lent::FULL
        };
        answer(format!(".data\n{line}").as_bytes(), 0, lent).number
    };
    assert_eq!(given(r#"x: .ascii "\q""#, 15, 0), 45);
    assert_eq!(given(r#"x: .ascii "\q""#, 16, 0), 9);
    assert_eq!(given(r#"x: .ascii "\n""#, 15, 0), 45);
    assert_eq!(given(r#"x: .ascii "\n""#, 16, 0), 42);
    for (line, length) in [
        (r#".ascii """#, 0),
        (r#".ascii "\n\377:""#, 3),
        (r#".asciz "\n\377:""#, 4),
        (r#".string """#, 1),
        (r#".string "\\" # \n"#, 2),
        (r#"": .ascii "\n""#, 2),
        (r#"": .asciz "\n""#, 3),
    ] {
        assert_eq!(given(line, 16, length), 0, "{line}");
        if length > 0 {
            assert_eq!(given(line, 16, length - 1), 42, "{line}");
        }
    }
}

// ---------- W-202 ----------

/// "Where li's second operand isn't a readable number, two words are emitted: lui
/// with the upper part, 0 included, then addi."
#[test]
fn lis_by_name() {
    for (value, pair) in [
        ("5", [0x00000537, 0x00550513]),
        ("0", [0x00000537, 0x00050513]),
        ("1", [0x00000537, 0x00150513]),
        ("-1", [0x00000537, 0xFFF50513]),
        ("2047", [0x00000537, 0x7FF50513]),
        ("2048", [0x00001537, 0x80050513]),
        ("-2047", [0x00000537, 0x80150513]),
        ("-2048", [0x00000537, 0x80050513]),
        ("-2049", [0xFFFFF537, 0x7FF50513]),
        ("4095", [0x00001537, 0xFFF50513]),
        ("4096", [0x00001537, 0x00050513]),
        ("-4096", [0xFFFFF537, 0x00050513]),
        ("0x7FFFF7FF", [0x7FFFF537, 0x7FF50513]),
        ("0x7FFFF800", [0x80000537, 0x80050513]),
        ("2147483647", [0x80000537, 0xFFF50513]),
        ("-2147483648", [0x80000537, 0x00050513]),
    ] {
        let text = format!("n = {value}\nli a0, n");
        assert_eq!(words(&text), pair, "{text}");
        let text = format!("li a0, n\n.equ n, m\nm = {value}");
        assert_eq!(words(&text), pair, "{text}");
    }
    let zero = "n = 5\nli x0, n";
    assert_eq!(words(zero), [0x00000037, 0x00500013]);
    let last = "n = 5\nli t6, n";
    assert_eq!(words(last), [0x00000FB7, 0x005F8F93]);
}

/// What is a name and what a number: `parse_imm` reads from -2^31 to 2^32 - 1,
/// and character literals.
#[test]
fn names_that_look_like_numbers() {
    let seven = [0x00000537, 0x00750513];
    for name in [
        "4294967296",
        "-2147483649",
        "0x100000000",
        "99999999999999999999",
        "- 5",
        "0x",
        "a b",
    ] {
        let text = format!("{name} = 7\nli a0, {name}");
        assert_eq!(words(&text), seven, "{text}");
        let text = format!("li a0, {name}\n.set {name}, 7");
        assert_eq!(words(&text), seven, "{text}");
    }
    assert_eq!(words("a b = 7\nli a0, a\t\x0b b"), seven);
    for (name, word) in [
        ("5", 0x00500513),
        ("-1", 0xFFF00513),
        ("--5", 0x00500513),
        ("0x5", 0x00500513),
        ("4294967295", 0xFFF00513),
        ("'a'", 0x06100513),
    ] {
        for value in ["9", "99999", "4294967296"] {
            let text = format!("{name} = {value}\nli a0, {name}");
            assert_eq!(words(&text), [word], "{text}");
        }
    }
    assert_eq!(words("2048 = 9\nli a0, 2048"), [0x00001537, 0x80050513]);
}

/// "An equate beyond 32 signed bits is still 19", as are undefined names, labels,
/// and what begins with a quote and is no literal.
#[test]
fn lis_that_stay_refused() {
    for (text, line) in [
        ("n = 2147483648\nli a0, n", 1),
        ("n = 4294967295\nli a0, n", 1),
        ("n = 4294967296\nli a0, n", 1),
        ("n = -2147483649\nli a0, n", 1),
        ("n = 9223372036854775807\nli a0, n", 1),
        ("4294967296 = 2147483648\nli a0, 4294967296", 1),
        ("li a0, n", 0),
        ("li a0, 4294967296", 0),
        ("li a0, -2147483649", 0),
        ("n:\nli a0, n", 1),
        ("a\tb = 5\nli a0, a\tb", 1),
        (".equ ', 5\nli a0, '", 1),
        (".equ 'ab', 5\nli a0, 'ab'", 1),
    ] {
        refused(text, 19, line);
    }
}

/// First words, addresses and labels behind lis of each size.
#[test]
fn places_behind_lis() {
    let text = "n = 5\na: li a0, n\nb: ecall\nc: li a1, 5\nd: li a2, n\ne: li a3, 2048\nf: push ra";
    let given = answer(text.as_bytes(), 0x1000, Lent::FULL);
    let items = given.items.chunks(ITEM_SIZE);
    let places: Vec<_> = items.map(|item| (field(item, 0), field(item, 3))).collect();
    let firsts = [0, 2, 3, 4, 6, 8];
    assert_eq!(places, firsts.map(|first| (0x1000 + 4 * first, first)));
    let labels = given.labels.chunks(16).map(|label| field(label, 2));
    assert!(labels.eq(firsts.map(|first| 0x1000 + 4 * first)));
    assert_eq!(given.counts.words, 10);
    assert_eq!(given.words[2..5], [0, 0x00500593, 0x00000637]);
}

/// The words reserved are those emitted: 44 where one less is lent.
#[test]
fn what_is_lent_to_lis() {
    let given = |text: &str, words: usize| {
        let lent = Lent {
            words,
            ..Lent::FULL
        };
        let given = answer(text.as_bytes(), 0, lent);
        (given.number, given.line, given.counts.words)
    };
    for (text, line, reserved) in [
        ("n = 5\nli a0, n", 1, 2),
        ("n = 5\nli a0, n\nx: li a1, n", 2, 4),
        ("4294967296 = 7\nli a0, 4294967296", 1, 2),
        ("5 = 9\nli a0, 5", 1, 1),
    ] {
        assert_eq!(given(text, reserved), (0, 0, reserved as u64), "{text}");
        assert_eq!(given(text, reserved - 1), (44, line, 0), "{text}");
    }
    // 1,489 times eleven words and three are 16,382.
    let most = format!(
        "x:\nn=5\n{}print a0\nli a0,n\n",
        "print_str x\n".repeat(1_489)
    );
    assert_eq!(given(&most, 20_000), (0, 0, 16_384));
    assert_eq!(given(&format!("{most}li a0,5"), 20_000), (44, 1_493, 0));
    let above = most.replace("print a0", "print a0\nli a0,5");
    assert_eq!(given(&above, 20_000), (44, 1_493, 0));
}

/// "Each item's address then equals the base plus four times its first word's
/// index in all accepted layouts."
#[test]
fn items_are_where_their_words_are() {
    let generator = Generator::new(1, pool().expect("the sources to change"));
    let mut items = 0;
    for kind in Kind::ALL {
        let count = match kind {
            Kind::Many => 20,
            Kind::Limits | Kind::Built => kind.total().unwrap_or(0),
            _ => 5_000,
        };
        for index in 0..count {
            let case = generator.case(kind, index);
            let (given, _) = assemble(&case.text, case.base, case.lent);
            assert_eq!(given.misplaced(case.base), None, "{} {index}", kind.name());
            items += given.counts.items;
        }
    }
    assert!(items > 50_000, "{items} items");
    let mut moved = full("n = 5\nli a0, n\nx: nop");
    moved.items[ITEM_SIZE + 12] = 1;
    assert_eq!(moved.misplaced(0), Some(1));
}
