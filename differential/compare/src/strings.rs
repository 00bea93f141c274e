//! W-201's lines of strings in the reference's terms, which has document 01's
//! strings alone. Nothing here is the model's: a fault of the model in a string
//! is a difference.

use std::borrow::Cow;

use differential::statements::section_name;

const DIRECTIVES: [(&str, &[u8]); 3] = [(".ascii", &[]), (".asciz", &[0]), (".string", &[0])];

/// The text in which each string that is no longer the Rust's to decide is given
/// by `.byte`, or by a string that the Rust refuses. Nothing else moves: lines,
/// labels and places stay as they are.
pub fn with_bytes(text: &str) -> Cow<'_, str> {
    if !DIRECTIVES.iter().any(|(name, _)| text.contains(name)) {
        return Cow::Borrowed(text);
    }
    let mut is_data = false;
    let mut is_changed = false;
    let mut lines = Vec::new();
    for raw in text.split('\n') {
        let line = match section_name(uncommented(raw).trim()) {
            Some(name) => {
                is_data = is_data_after(&name, is_data);
                None
            }
            None if is_data => bytes_line(raw),
            None => None,
        };
        is_changed |= line.is_some();
        lines.push(line.map_or(Cow::Borrowed(raw), Cow::Owned));
    }
    match is_changed {
        true => Cow::Owned(lines.join("\n")),
        false => Cow::Borrowed(text),
    }
}

fn uncommented(line: &str) -> &str {
    line.split([';', '#']).next().unwrap_or(line)
}

/// Whether lines are of data after a section line.
fn is_data_after(name: &str, is_data: bool) -> bool {
    match name.strip_prefix('.').unwrap_or(name) {
        "data" | "rodata" | "sdata" | "srodata" => true,
        "note.GNU-stack" => is_data,
        _ => false,
    }
}

/// A line of data in other terms; none if it stays.
fn bytes_line(raw: &str) -> Option<String> {
    let statement = uncommented(raw);
    let before_quote = statement.split('"').next().unwrap_or(statement);
    let label = before_quote.find(':').map_or(0, |colon| colon + 1);
    let (label, statement) = raw.split_at(label);
    let (operand, zeros) = DIRECTIVES.iter().find_map(|(name, zeros)| {
        let operand = statement.trim_start().strip_prefix(name)?;
        Some((operand, *zeros))
    })?;
    if is_the_rusts(operand, !label.is_empty()) {
        return None;
    }
    let statement = match decoded(operand) {
        None => ".ascii ?".into(),
        Some(bytes) if bytes.is_empty() && zeros.is_empty() => ".ascii \"\"".into(),
        Some(bytes) => {
            let bytes: Vec<String> = bytes.iter().chain(zeros).map(u8::to_string).collect();
            format!(".byte {}", bytes.join(","))
        }
    };
    Some(format!("{label} {statement}"))
}

/// Whether the Rust is the reference for a string: one without `\`, `;`, `#` and
/// inner quotes, without `:`, and with no colon behind it. Where the line has a
/// label already, the Rust takes another colon for any other byte.
fn is_the_rusts(operand: &str, is_labelled: bool) -> bool {
    let Some((before, opened)) = operand.split_once('"') else {
        return true;
    };
    if before.contains([';', '#']) {
        return true;
    }
    let (string, behind) = opened.split_once('"').unwrap_or((opened, ""));
    let behind = uncommented(behind);
    let is_label = string.contains(':') || behind.contains(':');
    !string.contains(['\\', ';', '#']) && !behind.contains('"') && (is_labelled || !is_label)
}

#[derive(Clone, Copy)]
enum Place {
    Before,
    Inside,
    Escape,
    /// In an octal number: how many digits there are, and their value.
    Octal(u32, u32),
    Behind,
}

/// A string's bytes; none where W-201 refuses it.
fn decoded(operand: &str) -> Option<Vec<u8>> {
    let mut bytes = Vec::new();
    let mut place = Place::Before;
    for byte in operand.bytes() {
        if let Place::Octal(count, value) = place {
            if count == 3 || !byte.is_ascii_digit() {
                bytes.push(u8::try_from(value).ok()?);
                place = Place::Inside;
            }
        }
        place = match (place, byte) {
            (Place::Before, b'"') => Place::Inside,
            (Place::Inside, b'"') => Place::Behind,
            (Place::Before | Place::Behind, 9..=13 | 32) => place,
            (Place::Behind, b';' | b'#') => return Some(bytes),
            (Place::Before | Place::Behind, _) => return None,
            (Place::Inside, b'\\') => Place::Escape,
            (Place::Escape, b'0'..=b'9') => Place::Octal(1, u32::from(byte - b'0')),
            (Place::Octal(count, value), _) => {
                Place::Octal(count + 1, 8 * value + u32::from(byte - b'0'))
            }
            (Place::Escape, _) => {
                bytes.push(escaped(byte)?);
                Place::Inside
            }
            (Place::Inside, _) => {
                bytes.push(byte);
                Place::Inside
            }
        };
    }
    matches!(place, Place::Behind).then_some(bytes)
}

fn escaped(letter: u8) -> Option<u8> {
    let letters = b"bfnrt\\\"".iter().position(|known| *known == letter);
    letters.map(|place| b"\x08\x0c\n\r\t\\\""[place])
}

#[cfg(test)]
mod tests {
    use super::*;

    /// The lines for which the Rust is the reference, and all outside data.
    #[test]
    fn what_stays() {
        for line in [
            r#".ascii "a b, c""#,
            r#"x: .asciz"a" # "b: \n"#,
            r#"x: .ascii "a:b" :"#,
            r#".string "a" b"#,
            r#".string "a"#,
            r#".string a"#,
            r#".ascii # "a\n""#,
            r#".ascii a:b"#,
            r#".ascii:"a\n""#,
            r#"": .ascii "a\n""#,
            r#"x: y: .ascii "a\n""#,
            r#".asci "\n""#,
        ] {
            let data = format!(".data\n{line}\nz:");
            assert_eq!(with_bytes(&data), data);
        }
        for section in ["", ".bss\n", ".data\n.text\n", ".section .text, \"\"\n"] {
            let text = format!("{section}.ascii \"a\\n:\"");
            assert_eq!(with_bytes(&text), text);
        }
    }

    #[test]
    fn what_is_given_by_bytes() {
        for (line, given) in [
            (r#".ascii "12:4#;\n""#, " .byte 49,50,58,52,35,59,10"),
            (r#" x : .asciz "\\" # b"#, " x : .byte 92,0"),
            (r#".string "\377\08\1234""#, " .byte 255,8,83,52,0"),
            (r#": .asciz ";""#, ": .byte 59,0"),
            (r#".ascii "a":"#, " .ascii ?"),
            (r#"x: .ascii "a" "b""#, "x: .ascii ?"),
            (r#".ascii "\"#, " .ascii ?"),
            (r#".ascii "\q""#, " .ascii ?"),
            (r#".ascii "\378""#, " .ascii ?"),
        ] {
            let sections = [
                ".data\n",
                ".text\n.section rodata\n",
                ".data\n.section .note.GNU-stack\n",
            ];
            for section in sections {
                let text = format!("{section}{line}\nz:");
                assert_eq!(with_bytes(&text), format!("{section}{given}\nz:"));
            }
        }
    }
}
