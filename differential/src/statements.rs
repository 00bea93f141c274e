//! The statements of a source, read by the reference's own cutting of lines.

use crate::falcon::asm::utils::preprocess;

/// What is left of a line behind its label.
pub struct Statement {
    pub line: usize,
    pub text: String,
}

/// The statements of a source, up to its first bad section name.
pub fn statements(text: &str) -> Vec<Statement> {
    let mut found = Vec::new();
    for (line, raw) in preprocess(text) {
        if let Some(name) = section_name(&raw) {
            if !is_section(&name) {
                break;
            }
        } else {
            let text = match raw.split_once(':') {
                Some((_, rest)) => rest.trim().to_string(),
                None => raw,
            };
            found.push(Statement { line, text });
        }
    }
    found
}

/// The name in a line that is taken whole.
pub fn section_name(line: &str) -> Option<String> {
    if [".text", ".data", ".bss"].contains(&line) {
        return Some(line.to_string());
    }
    let rest = line.strip_prefix(".section")?.trim();
    let name = rest.split(|c: char| c.is_whitespace() || c == ',').next();
    Some(name.unwrap_or("").to_string())
}

fn is_section(name: &str) -> bool {
    match name.strip_prefix('.').unwrap_or(name) {
        "text" | "data" | "rodata" | "sdata" | "srodata" | "bss" | "sbss" => true,
        "note.GNU-stack" => name.starts_with('.'),
        _ => false,
    }
}

/// The nine pseudos in every spelling, the words that each becomes in the Rust
/// (li: one or two, so 0 here), and whether the name may end its line.
const PSEUDOS: [(&str, usize, bool); 12] = [
    ("li", 0, false),
    ("la", 2, false),
    ("push", 2, false),
    ("pop", 2, false),
    ("print", 3, true),
    ("print_str", 11, true),
    ("printStr", 11, true),
    ("printString", 11, true),
    ("read", 6, true),
    ("read_byte", 4, true),
    ("readByte", 4, true),
    ("random", 8, true),
];

fn begins_with(statement: &str, name: &str, may_end: bool) -> bool {
    match statement.strip_prefix(name) {
        Some("") => may_end,
        Some(rest) => rest.starts_with(' '),
        None => false,
    }
}

pub fn pseudo_words(statement: &str) -> Option<usize> {
    let mut pseudos = PSEUDOS.iter();
    let found = pseudos.find(|(name, _, may_end)| begins_with(statement, name, *may_end));
    found.map(|(_, words, _)| *words)
}
