//! A list of cases: what is asked, and what the reference answers.

use std::collections::BTreeMap;

/// The bytes of a text as a field of a case: a visible byte other than `%`
/// stands as itself, every other is `%` and two hexadecimal digits. So no
/// field holds the TAB or LF that part fields and lines.
pub fn escape(text: &str) -> String {
    let mut field = String::new();
    for byte in text.bytes() {
        if (33..=126).contains(&byte) && byte != b'%' {
            field.push(byte as char);
        } else {
            field.push_str(&format!("%{byte:02X}"));
        }
    }
    field
}

/// Several texts as one field; a comma inside one of them would be lost.
pub fn escape_list<T: AsRef<str>>(texts: &[T]) -> String {
    let fields: Vec<String> = texts.iter().map(|text| escape(text.as_ref())).collect();
    fields.join(",")
}

/// What orders the cases: the kind's place among the kinds, then the shorter
/// question first, then its bytes.
type Key = (usize, usize, Vec<String>);

/// Cases without duplicates, kept in order.
pub struct Cases {
    kinds: &'static str,
    answers: BTreeMap<Key, String>,
}

impl Cases {
    /// `kinds` holds each kind's letter, in the order of the list.
    pub fn new(kinds: &'static str) -> Self {
        Cases {
            kinds,
            answers: BTreeMap::new(),
        }
    }

    /// Adds a case; the answer stands in the file as it is given here.
    pub fn add(&mut self, kind: char, question: &[&str], answer: String) {
        let place = self.kinds.find(kind).expect("a kind of this list");
        assert!(question.iter().all(|text| text.is_ascii()));
        let length = question.iter().map(|text| text.len()).sum();
        let question = question.iter().map(|text| text.to_string()).collect();
        self.answers.insert((place, length, question), answer);
    }

    /// The whole file.
    pub fn text(&self) -> String {
        let mut file = String::new();
        for ((place, _, question), answer) in &self.answers {
            file.push_str(&self.kinds[*place..=*place]);
            for text in question {
                file.push('\t');
                file.push_str(&escape(text));
            }
            file.push('\t');
            file.push_str(answer);
            file.push('\n');
        }
        file
    }
}
