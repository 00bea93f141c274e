//! Bytes of every kind, without any respect for lines.

use differential::random::Random;

/// Pieces that bring random bytes near the rules.
const PIECES: [&[u8]; 26] = [
    b".data\n",
    b".bss\n",
    b".text\n",
    b".section ",
    b":",
    b"=",
    b"\n",
    b",",
    b"li ",
    b"la a0,",
    b".word ",
    b".byte ",
    b".equ ",
    b"\"",
    b"'",
    b"#",
    b";",
    b".",
    b"0x",
    b"-",
    b"+",
    b" ",
    b"\t",
    b"\r\n",
    b"print_str ",
    b".align ",
];

pub fn text(random: &mut Random) -> Vec<u8> {
    let longest = match random.below(64) {
        0 => 3000,
        1..=8 => 400,
        _ => 48,
    };
    let length = random.below(longest + 1);
    let style = random.below(8);
    let mut text = Vec::with_capacity(length + 16);
    while text.len() < length {
        match style {
            // Any byte: mostly refused by 1.
            0 => text.push(random.next() as u8),
            // Bytes below 128.
            1 => text.push(random.next() as u8 & 127),
            // Control bytes and a few others.
            2 => text.push(random.next() as u8 & 63),
            // NULs.
            3 => text.push([0, 0, 0, b'\n', b':', b'=', b'a'][random.below(7)]),
            // White space of every kind, and what parts lines.
            4 => text.push(
                [9, 10, 11, 12, 13, 32, b':', b'a', b'=', b'5', b',', 28, 31][random.below(13)],
            ),
            // Pieces alone.
            5 => text.extend_from_slice(random.pick(&PIECES)),
            // Pieces and bytes below 128.
            6 => match random.below(3) {
                0 => text.extend_from_slice(random.pick(&PIECES)),
                _ => text.push(random.next() as u8 & 127),
            },
            // Printable ones.
            _ => text.push(32 + (random.next() >> 8) as u8 % 95),
        }
    }
    // A single byte above 127, anywhere.
    if random.below(8) == 0 && !text.is_empty() {
        let place = random.below(text.len());
        text[place] = 128 | random.next() as u8;
    }
    text
}
