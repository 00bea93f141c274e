//! Document 01's "Text, numbers, registers", and the strings of change request
//! W-201.

use super::marks::mark;

/// A part of the text, and where it starts there.
#[derive(Clone, Copy)]
pub struct Piece<'a> {
    pub at: usize,
    pub bytes: &'a [u8],
}

impl<'a> Piece<'a> {
    pub fn is_empty(self) -> bool {
        self.bytes.is_empty()
    }

    /// The first `length` bytes.
    pub fn before(self, length: usize) -> Self {
        Piece {
            at: self.at,
            bytes: &self.bytes[..length],
        }
    }

    /// What follows the first `length` bytes.
    pub fn after(self, length: usize) -> Self {
        Piece {
            at: self.at + length,
            bytes: &self.bytes[length..],
        }
    }

    pub fn find(self, byte: u8) -> Option<usize> {
        self.bytes.iter().position(|b| *b == byte)
    }

    /// What stands before the first such byte, or the whole.
    pub fn cut(self, byte: u8) -> Self {
        match self.find(byte) {
            Some(place) => self.before(place),
            None => self,
        }
    }

    /// What follows a beginning, if it begins so.
    pub fn strip(self, beginning: &str) -> Option<Self> {
        match self.bytes.starts_with(beginning.as_bytes()) {
            true => Some(self.after(beginning.len())),
            false => None,
        }
    }

    pub fn trim(self) -> Self {
        let lead = self.bytes.iter().take_while(|b| is_white(**b)).count();
        let rest = self.after(lead);
        let tail = rest.bytes.iter().rev().take_while(|b| is_white(**b));
        rest.before(rest.bytes.len() - tail.count())
    }
}

/// Bytes 9 to 13 and 32.
pub fn is_white(byte: u8) -> bool {
    (9..=13).contains(&byte) || byte == 32
}

pub fn trim(bytes: &[u8]) -> &[u8] {
    Piece { at: 0, bytes }.trim().bytes
}

/// White-space runs made one space, those at both ends dropped.
pub fn one_spaced(bytes: &[u8]) -> Vec<u8> {
    let mut spaced = Vec::with_capacity(bytes.len());
    let words = bytes
        .split(|b| is_white(*b))
        .filter(|word| !word.is_empty());
    for word in words {
        if !spaced.is_empty() {
            spaced.push(b' ');
        }
        spaced.extend_from_slice(word);
    }
    spaced
}

/// A number of 64 signed bits. The digits with a sign of their own must fit
/// before the outer sign is applied, and the number after it.
pub fn number(bytes: &[u8]) -> Option<i64> {
    let bytes = trim(bytes);
    let (outer, body) = match bytes.first() {
        Some(b'-') => {
            mark!(OuterMinus);
            (-1, &bytes[1..])
        }
        Some(b'+') => {
            mark!(OuterPlus);
            (1, &bytes[1..])
        }
        _ => (1, bytes),
    };
    let (radix, digits) = match body {
        [b'0', b'x' | b'X', rest @ ..] => {
            mark!(Hexadecimal);
            (16, rest)
        }
        [b'0', b'b' | b'B', rest @ ..] => {
            mark!(Binary);
            (2, rest)
        }
        _ => (10, body),
    };
    let (own, digits) = match digits.first() {
        Some(b'-') => {
            mark!(OwnMinus);
            (-1, &digits[1..])
        }
        Some(b'+') => {
            mark!(OwnPlus);
            (1, &digits[1..])
        }
        _ => (1, digits),
    };
    let signed = own * magnitude(digits, radix)?;
    let Ok(with_own) = i64::try_from(signed) else {
        mark!(DigitsBeyond);
        return None;
    };
    let Ok(value) = i64::try_from(outer * i128::from(with_own)) else {
        mark!(OuterBeyond);
        return None;
    };
    mark!(NumberRead);
    Some(value)
}

/// The value of digits alone, at least one; beyond 2^64 it is cut to 2^64,
/// which fits nowhere.
pub fn magnitude(digits: &[u8], radix: u32) -> Option<i128> {
    if digits.is_empty() {
        mark!(NoDigits);
        return None;
    }
    let mut value = 0i128;
    for byte in digits {
        let Some(digit) = (*byte as char).to_digit(radix) else {
            mark!(NoDigit);
            return None;
        };
        value = (value * i128::from(radix) + i128::from(digit)).min(1 << 64);
    }
    Some(value)
}

/// A character literal, not trimmed: one byte below 128 or an escape.
pub fn character(bytes: &[u8]) -> Option<i64> {
    let [b'\'', inner @ .., b'\''] = bytes else {
        mark!(LiteralOpen);
        return None;
    };
    let code = match inner {
        [byte] if *byte < 128 => {
            mark!(LiteralByte);
            *byte
        }
        b"\\n" => b'\n',
        b"\\t" => b'\t',
        b"\\r" => b'\r',
        b"\\0" => 0,
        b"\\\\" => b'\\',
        b"\\'" => b'\'',
        b"\\\"" => b'"',
        _ => {
            mark!(LiteralBad);
            return None;
        }
    };
    if inner.len() == 2 {
        mark!(LiteralEscape);
    }
    Some(i64::from(code))
}

/// `parse_imm64`: a character literal or a number of 64 signed bits.
pub fn imm64(bytes: &[u8]) -> Option<i64> {
    let bytes = trim(bytes);
    match bytes.first() {
        Some(b'\'') => character(bytes),
        _ => number(bytes),
    }
}

/// `parse_imm`: from -2^31 to 2^32 - 1, the upper half as negative.
pub fn imm(bytes: &[u8]) -> Option<i32> {
    match imm64(bytes)? {
        value @ -0x8000_0000..=0x7FFF_FFFF => Some(value as i32),
        value @ 0x8000_0000..=0xFFFF_FFFF => {
            mark!(UpperHalf);
            Some((value - 0x1_0000_0000) as i32)
        }
        _ => {
            mark!(ImmBeyond);
            None
        }
    }
}

const ABI: [&str; 33] = [
    "zero", "ra", "sp", "gp", "tp", "t0", "t1", "t2", "s0", "s1", "a0", "a1", "a2", "a3", "a4",
    "a5", "a6", "a7", "s2", "s3", "s4", "s5", "s6", "s7", "s8", "s9", "s10", "s11", "t3", "t4",
    "t5", "t6", "fp",
];

/// A register's number.
pub fn register(bytes: &[u8]) -> Option<u32> {
    let bytes = trim(bytes);
    if let Some(b'x' | b'X') = bytes.first() {
        let digits = bytes[1..].strip_prefix(b"+").unwrap_or(&bytes[1..]);
        return match magnitude(digits, 10) {
            Some(number @ 0..=31) => {
                mark!(RegisterX);
                Some(number as u32)
            }
            _ => {
                mark!(RegisterXBad);
                None
            }
        };
    }
    let named = |name: &&str| name.as_bytes().eq_ignore_ascii_case(bytes);
    match ABI.iter().position(named) {
        Some(32) => {
            mark!(RegisterFp);
            Some(8)
        }
        Some(number) => {
            mark!(RegisterAbi);
            Some(number as u32)
        }
        None => {
            mark!(RegisterBad);
            None
        }
    }
}

/// Document 01's string, trimmed, without its quotes.
pub fn string(bytes: &[u8]) -> Option<&[u8]> {
    match trim(bytes) {
        [b'"', inner @ .., b'"'] => Some(inner),
        _ => None,
    }
}

/// W-201's string: what follows the directive's name, to the line's end. There
/// is nothing beside it but blanks and a comment after it.
pub fn display_string(operand: &[u8]) -> Option<Vec<u8>> {
    let blanks = operand.iter().take_while(|b| is_white(**b)).count();
    let [b'"', rest @ ..] = &operand[blanks..] else {
        mark!(StringUnopened);
        return None;
    };
    let (bytes, beside) = to_the_quote(rest)?;
    match trim(beside).first() {
        None => {}
        Some(b';' | b'#') => mark!(StringCommented),
        Some(_) => {
            mark!(StringBeside);
            return None;
        }
    }
    Some(bytes)
}

/// The string's bytes to the next unescaped quote, and what follows it.
fn to_the_quote(mut rest: &[u8]) -> Option<(Vec<u8>, &[u8])> {
    let mut bytes = Vec::new();
    loop {
        let byte = match rest {
            [] | [b'\\'] => {
                mark!(StringUnclosed);
                return None;
            }
            [b'"', beside @ ..] => return Some((bytes, beside)),
            [b'\\', escaped @ ..] => {
                let (byte, length) = escape(escaped)?;
                rest = &escaped[length..];
                byte
            }
            [byte, behind @ ..] => {
                match byte {
                    b':' => mark!(StringColon),
                    b';' | b'#' => mark!(StringCommentMark),
                    _ => {}
                }
                rest = behind;
                *byte
            }
        };
        bytes.push(byte);
    }
}

/// The byte that an escape stands for, and its length behind the backslash.
fn escape(escaped: &[u8]) -> Option<(u8, usize)> {
    let byte = match escaped[0] {
        b'b' => {
            mark!(EscapeBackspace);
            8
        }
        b'f' => {
            mark!(EscapeFormFeed);
            12
        }
        b'n' => {
            mark!(EscapeLineFeed);
            10
        }
        b'r' => {
            mark!(EscapeReturn);
            13
        }
        b't' => {
            mark!(EscapeTab);
            9
        }
        b'\\' => {
            mark!(EscapeBackslash);
            b'\\'
        }
        b'"' => {
            mark!(EscapeQuote);
            b'"'
        }
        b'0'..=b'9' => return octal(escaped),
        _ => {
            mark!(EscapeOther);
            return None;
        }
    };
    Some((byte, 1))
}

/// One to three octal digits up to 377. As in the GNU as manual, 8 and 9 are
/// digits too.
fn octal(escaped: &[u8]) -> Option<(u8, usize)> {
    let digits = escaped.iter().take(3).take_while(|b| b.is_ascii_digit());
    let digits: Vec<u32> = digits.map(|b| u32::from(b - b'0')).collect();
    match digits.len() {
        1 => mark!(OctalOne),
        2 => mark!(OctalTwo),
        _ => mark!(OctalThree),
    }
    if digits.iter().any(|digit| *digit > 7) {
        mark!(OctalEightNine);
    }
    let value = digits.iter().fold(0, |value, digit| 8 * value + digit);
    let Ok(byte) = u8::try_from(value) else {
        mark!(OctalBeyond);
        return None;
    };
    Some((byte, digits.len()))
}

/// An item's operands: parted at commas, trimmed, empty ones dropped.
pub fn operands(bytes: &[u8]) -> Vec<&[u8]> {
    let parts = bytes.split(|b| *b == b',').map(trim);
    parts.filter(|part| !part.is_empty()).collect()
}
