//! Single sources that show one point each: the smallest inputs of
//! docs/DECISIONS.md and docs/DIFFERENCES.md, each escape, and each refusal at
//! its first place, before and behind others.

use super::Case;
use crate::model::{Lent, EQUATE_SIZE, ITEM_SIZE, LABEL_SIZE};

/// At base 0, with all buffers of full size.
const FULL: &[&[u8]] = &[
    // Text and numbers.
    b".data\n.byte '''",
    b".data\n.byte '\\'",
    b".data\n.byte  'a'",
    b".data\n.byte '\xC8'",
    b".data\n.byte -1",
    b".data\n.half -1",
    b"push x-0",
    b"push x05",
    b"push x+5",
    b"push ra\0",
    b".data\n.dword 9223372036854775808",
    b".data\n.dword 9223372036854775807",
    b".data\n.dword --9223372036854775808",
    b".data\n.dword -0x-1",
    b".data\n.byte 010",
    b".data\n.byte 08",
    b".data\n.byte - 5",
    b".data\n.byte 0x",
    b".data\n.word 4294967296",
    b".data\n.word 4294967295, -2147483648",
    b".data\n.word -2147483649",
    b".data\n.byte 'a",
    b".data\n.byte 1,,2",
    b".data\n.byte 1 ; .byte 2",
    b".data\n.byte 1\x0b",
    b"li a0, '\t'",
    // Refusal 1, and what comes before it.
    b"\x80",
    b"\n\x80",
    b"\n\n# \xFF\n\x80",
    b".section\n\x80",
    b"a = (\n\x80",
    b"nop # \xC3\xA9",
    b"nop ; \xFF\n.section",
    // Lines.
    b"a=b;c:d\nb=1",
    b";a:",
    b"a#b:c",
    b"x: .data\n.byte 1",
    b".data\nx: .data",
    b".bss\nx: .data",
    b".section data x:\n.byte 1",
    b".section .note.GNU-stack x:",
    b"a: b: nop",
    b"a:\na:",
    b"a:\nb:\na:",
    b"b:\na:",
    b":",
    b" : nop",
    b"5:\nla a0, 5",
    b"a b:\nla a0, a  b",
    b"a  b:\nla a0, a  b",
    b"a b = 1\nli a0, a  b",
    b"a  b = 1\nli a0, a  b",
    b"nop\n.section",
    b"push",
    b"li\ta0, 5",
    b"print_str x\nprintStr x\nprintString x\nx:",
    // Data and bss.
    b".data\n.space 1,2",
    b".data\n.byte 1\n.bss\n.align 4",
    b".data\n.words 5",
    b".data\n.skip 1",
    b".data\n.align 0",
    b".data\n.byte 1\n.align 2\nx:",
    b".data\n.ascii \"a\",\"b\"",
    b".data\n.string \"a:b\"",
    b".data\n.asciz \"a\\n\"",
    b".data\n.byte",
    b".data\nw: .word w",
    b".data\nx: .word x+4",
    b".data\n.word y\ny = 5",
    b".data\n.word u\na = u",
    b".data\n.float 1",
    b".data\n.float x",
    b".data\n.byte 1,2\n.byte 1 ,2",
    b".data\n.space 65537",
    b".bss\n.space 1048577",
    b".bss\n.byte 1",
    // Strings.
    b".data\n.ascii \"12:40 #3;ok\\n\"",
    b".data\nx: .asciz \"12:40 #3;ok\\n\" # \"",
    b".data\n.ascii \"\\b\"",
    b".data\n.ascii \"\\f\"",
    b".data\n.ascii \"\\n\"",
    b".data\n.ascii \"\\r\"",
    b".data\n.ascii \"\\t\"",
    b".data\n.ascii \"\\\\\"",
    b".data\n.ascii \"\\\"\"",
    b".data\n.ascii \"\\0\"",
    b".data\n.ascii \"\\8\"",
    b".data\n.ascii \"\\08\"",
    b".data\n.ascii \"\\99\"",
    b".data\n.ascii \"\\101\"",
    b".data\n.ascii \"\\1234\"",
    b".data\n.ascii \"\\369\"",
    b".data\n.ascii \"\\377\"",
    b".data\n.ascii \"\\3777\"",
    b".data\n.ascii \"\\378\"",
    b".data\n.ascii \"\\400\"",
    b".data\n.ascii \"\\q\"",
    b".data\n.ascii \"\\x41\"",
    b".data\n.ascii \"\\'\"",
    b".data\n.ascii \":\"",
    b".data\n.ascii \"#\"",
    b".data\n.ascii \";\"",
    b".data\n.ascii \"",
    b".data\n.ascii \"\\",
    b".data\n.ascii \"\\\"",
    b".data\n.ascii \"\"\"",
    b".data\n.ascii \"a\"b",
    b".data\n.ascii \"a\" \"b\"",
    b".data\n.ascii a\"b\"",
    b".data\n.ascii \"a\"#\"",
    b".data\n.ascii \"a\" ;b",
    b".data\n.ascii \"a\"\r\n",
    b".data\n.ascii\"a\"",
    b".data\n.ascii # \"a\"",
    b".data\n.asciiz \"a\"",
    b".data\n.strings \"a\"",
    b".data\n.asciz5 \"a\"",
    b".data\n.ascii \"a\" :",
    b".data\n.ascii \"\":",
    b".data\n.ascii \"\" x: .byte 1",
    b".data\n.ascii:\"a\"",
    b".data\n.ascii a:b",
    b".data\n.ascii :",
    b".data\nx: y: .ascii \":\"",
    b".data\nx: .ascii \":\" :",
    b".data\n.section data: .ascii \":\"",
    b".data\n\": .ascii \"a\\n\"",
    b".data\n\": .ascii \"a\" \"b\"",
    b".data\n\": .ascii \"#\"",
    b".data\nx\": .asciz \":\"",
    b".data\n.ascii \"\xC8\"",
    b".bss\n.ascii \"#\"",
    b".bss\n.ascii \":\"",
    b".ascii \":\"",
    // Equates.
    b"n = 0x",
    b"n = u + 5f",
    b"n = u + 5g",
    b"n = 'a'",
    b".equ ., 9\nn = .",
    b".equ '', 5\nli a0, ''",
    b".equ n 5,6\nli a0, n 5",
    b".equ n\x0b5",
    b"n = 5\x0b+1",
    b".equ n 5\x0b+1",
    b".equ n, 5\x0b+1",
    b"a = b\na = 1",
    b".set a, 1\n.set a, 2",
    b"a = u 5",
    b"a = 5 u",
    b"a = 9223372036854775807+1+u",
    b"a = u+9223372036854775807+1",
    b"a = 9223372036854775807+1 5",
    b"a = 9223372036854775807+1 (",
    b"m = -9223372036854775807-1\na = -m",
    b"m = -9223372036854775807-1\na = --m",
    b"m = -9223372036854775807-1\na = 0-m",
    b"m = -9223372036854775807-1\na = 0--m",
    b"m = -9223372036854775807-1\na = -1-m",
    b"a = 9223372036854775807+1-1",
    b"x = a\na = b\na = u\nb = a",
    b"a = 1+b\nb = c\nc = 1",
    b"a = b\na = c",
    b"a = .",
    b"a = . - b\nnop\nb:",
    b"y = 5\nla a0, y",
    b"y:\nli a0, y",
    b"y:\ny = 1",
    b"y = 1\ny:",
    b"a = b\nb = c\nc = d\nd = a",
    b"z = 1\na = b\nb = a",
    b"a = u\nz = 1",
    // Lis by name.
    b"n = 5\nli a0, n",
    b"n = 5\nli a0, n\nx: nop",
    b"n = 5\nli a0, n\nx: ecall",
    b"n = 5\nli a0, n\nx: li a1, n\ny: la a2, x",
    b"n = 0\nli a0, n",
    b"n = -1\nli a0,n",
    b"n = 5\nli x0, n",
    b"n = 2047\nli a0, n",
    b"n = 2048\nli a0, n",
    b"n = -2048\nli a0, n",
    b"n = -2049\nli a0, n",
    b"n = 4096\nli a0, n",
    b"n = 0x7FFFF800\nli a0, n",
    b"n = 2147483647\nli a0, n",
    b"n = -2147483648\nli a0, n",
    b"n = 2147483648\nli a0,n",
    b"n = -2147483649\nli a0,n",
    b"n = 4294967295\nli a0,n",
    b"n = 9223372036854775807\nli a0, n",
    b"li a0, n\nx: ecall\nn = 5",
    b"li a0, n",
    b"4294967296 = 7\nli a0, 4294967296",
    b"4294967296 = 7\nli a0, 4294967296\nx: ecall",
    b"-2147483649 = 3\nli a0, -2147483649",
    b".equ 99999999999, 5\nli a0, 99999999999",
    b"4294967295 = 7\nli a0, 4294967295",
    b"5 = 9\nli a0, 5",
    b"5 = 9\nli a0, 5\nx: ecall",
    b"2048 = 9\nli a0, 2048",
    b"'a' = 9\nli a0, 'a'",
    b"a b = 5\nli a0, a\tb\nx: ecall",
    // Pseudos.
    b"li z, u",
    b"li a0",
    b"li a0, 1, 2",
    b"li ,a0,,5,",
    b"print_str a0",
    b"read x5\nx5:",
    b"read_byte zero",
    b"la zero, x\nx:",
    b"li x0, 99999",
    b"random_bytes x, 4",
    b"random_bytes",
    b"print_str_ln",
    b"read_half x = 5",
    b"push 5",
    b"pop ra, ra",
];

/// With something short, or another base.
const OTHERS: &[(&[u8], u32, Lent)] = &[
    (b".bss\n.align 2", 1, Lent::FULL),
    (
        b"a:",
        0,
        Lent {
            labels: LABEL_SIZE - 1,
            ..Lent::FULL
        },
    ),
    (
        b"a:",
        0,
        Lent {
            labels: LABEL_SIZE,
            ..Lent::FULL
        },
    ),
    (
        b"a:",
        0,
        Lent {
            labels: 2 * LABEL_SIZE - 1,
            ..Lent::FULL
        },
    ),
    (
        b"a:\na:",
        0,
        Lent {
            labels: LABEL_SIZE,
            ..Lent::FULL
        },
    ),
    (
        b"b: .equ",
        0,
        Lent {
            labels: 0,
            ..Lent::FULL
        },
    ),
    (
        b".equ",
        0,
        Lent {
            equates: 0,
            ..Lent::FULL
        },
    ),
    (
        b"n = (",
        0,
        Lent {
            equates: EQUATE_SIZE - 1,
            ..Lent::FULL
        },
    ),
    (
        b"n = (",
        0,
        Lent {
            equates: EQUATE_SIZE,
            ..Lent::FULL
        },
    ),
    (
        b".data\n.word x, ?",
        0,
        Lent {
            data: 4,
            ..Lent::FULL
        },
    ),
    (
        b".data\n.word x, ?",
        0,
        Lent {
            data: 3,
            ..Lent::FULL
        },
    ),
    (
        b".data\n.byte 1\n.align 2",
        0,
        Lent {
            data: 1,
            ..Lent::FULL
        },
    ),
    (
        b".data\n.align 2\n.space 0\n.ascii \"\"",
        0,
        Lent {
            data: 0,
            ..Lent::FULL
        },
    ),
    (
        b".data\n.byte 256",
        0,
        Lent {
            data: 0,
            ..Lent::FULL
        },
    ),
    (
        b".data\n.float 1",
        0,
        Lent {
            data: 0,
            ..Lent::FULL
        },
    ),
    (
        b".data\n.ascii \"\\n\\n\"",
        0,
        Lent {
            data: 2,
            ..Lent::FULL
        },
    ),
    (
        b".data\n.ascii \"\\n\\n\"",
        0,
        Lent {
            data: 1,
            ..Lent::FULL
        },
    ),
    (
        b".data\n.asciz \"\\377\"",
        0,
        Lent {
            data: 2,
            ..Lent::FULL
        },
    ),
    (
        b".data\n.asciz \"\\377\"",
        0,
        Lent {
            data: 1,
            ..Lent::FULL
        },
    ),
    (
        b".data\n.string \"\"",
        0,
        Lent {
            data: 1,
            ..Lent::FULL
        },
    ),
    (
        b".data\n.string \"\"",
        0,
        Lent {
            data: 0,
            ..Lent::FULL
        },
    ),
    (
        b".data\n\": .ascii \"a\\n\"",
        0,
        Lent {
            data: 3,
            ..Lent::FULL
        },
    ),
    (
        b".data\n\": .ascii \"a\\n\"",
        0,
        Lent {
            data: 2,
            ..Lent::FULL
        },
    ),
    (
        b".data\nx: .ascii \"\\q\"",
        0,
        Lent {
            data: 0,
            labels: 0,
            ..Lent::FULL
        },
    ),
    (
        b".data\nx: .ascii \"\\q\"",
        0,
        Lent {
            data: 0,
            labels: LABEL_SIZE,
            ..Lent::FULL
        },
    ),
    (
        b".data\nx: .ascii \"\\n\"",
        0,
        Lent {
            data: 0,
            labels: LABEL_SIZE,
            ..Lent::FULL
        },
    ),
    (
        b".data\n\": .ascii \"#\"",
        0,
        Lent {
            data: 0,
            labels: 0,
            ..Lent::FULL
        },
    ),
    (
        b"nop",
        0,
        Lent {
            items: 0,
            words: 0,
            ..Lent::FULL
        },
    ),
    (
        b"nop",
        0,
        Lent {
            words: 0,
            ..Lent::FULL
        },
    ),
    (
        b"read_word x",
        0,
        Lent {
            items: 0,
            words: 0,
            ..Lent::FULL
        },
    ),
    (
        b"nop\nnop",
        0,
        Lent {
            items: 2 * ITEM_SIZE - 1,
            ..Lent::FULL
        },
    ),
    (
        b"n=5\nli a0, n",
        0,
        Lent {
            words: 1,
            ..Lent::FULL
        },
    ),
    (
        b"n=5\nli a0, n",
        0,
        Lent {
            words: 2,
            ..Lent::FULL
        },
    ),
    (
        b"4294967296 = 7\nli a0, 4294967296",
        0,
        Lent {
            words: 1,
            ..Lent::FULL
        },
    ),
    (
        b"5 = 9\nli a0, 5",
        0,
        Lent {
            words: 1,
            ..Lent::FULL
        },
    ),
    (
        b"n=5\nli a0, n\nx: ecall",
        0,
        Lent {
            words: 2,
            ..Lent::FULL
        },
    ),
    (b"n=5\nli a0, n\nx: ecall", 0xFF00_0000, Lent::FULL),
    (b"la a0, x\nx:", 0x7FFF_F7F8, Lent::FULL),
    (b"la a0, x\nx:", 0x7FFF_F7F7, Lent::FULL),
    (b"la a0, x\nx:", 0x7FFF_FFF7, Lent::FULL),
    (b"la a0, x\nx:", 0x7FFF_FFF8, Lent::FULL),
    (b"\x80", 0xFF00_0001, Lent::FULL),
    (b"a:", 0xFF00_0000, Lent::FULL),
    (b".section", 0xFFFF_FFFF, Lent::FULL),
];

pub fn cases() -> Vec<Case> {
    let full = FULL.iter().map(|text| (*text, 0, Lent::FULL));
    let others = OTHERS.iter().copied();
    let case = |(text, base, lent): (&[u8], u32, Lent)| Case {
        text: text.to_vec(),
        base,
        lent,
        counts: 9,
    };
    full.chain(others).map(case).collect()
}
