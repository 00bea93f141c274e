//! Document 01's "Lines to places", and change request W-201's lines of strings:
//! one line after the other, until the first refusal.

use std::collections::HashMap;

use super::marks::mark;
use super::pseudos::{self, Kind};
use super::text::{display_string, imm, imm64, is_white, one_spaced, string, trim, Piece};
use super::{Lent, Refusal, EQUATE_SIZE, ITEM_SIZE, LABEL_SIZE};

#[derive(Clone, Copy, Debug, PartialEq, Eq)]
pub enum Section {
    Text,
    Data,
    Bss,
}

/// A section, and the bytes reserved there above a line.
#[derive(Clone, Copy, Debug)]
pub struct Place {
    pub section: Section,
    pub offset: u64,
}

/// A label's last definition.
pub struct Label {
    pub at: usize,
    pub line: usize,
    pub place: Place,
}

/// An equate; its round is 0 until it has a value.
pub struct Equate<'a> {
    pub name: Piece<'a>,
    pub expression: Vec<u8>,
    pub line: usize,
    pub place: Place,
    pub value: i64,
    pub round: usize,
}

/// An item; its kind is the record's number, its offset that in the text
/// section.
pub struct Item<'a> {
    pub offset: u64,
    pub line: usize,
    pub kind: usize,
    pub source: Piece<'a>,
}

/// A `.word` operand that is a name, and where its four bytes stand.
pub struct LabelWord<'a> {
    pub at: usize,
    pub name: &'a [u8],
    pub line: usize,
}

/// What the lines come to.
pub struct Lines<'a> {
    pub labels: HashMap<&'a [u8], Label>,
    pub equates: Vec<Equate<'a>>,
    pub items: Vec<Item<'a>>,
    pub data: Vec<u8>,
    pub label_words: Vec<LabelWord<'a>>,
    pub bss: u64,
}

struct Reader<'a> {
    lines: Lines<'a>,
    section: Section,
    /// Words reserved in the text section.
    reserved: u64,
    lent: Lent,
    line: usize,
}

/// A line's refusal: its number.
type Done = Result<(), u8>;

pub fn read(text: &[u8], lent: Lent) -> Result<Lines<'_>, Refusal> {
    let mut reader = Reader {
        lines: Lines {
            labels: HashMap::new(),
            equates: Vec::new(),
            items: Vec::new(),
            data: Vec::new(),
            label_words: Vec::new(),
            bss: 0,
        },
        section: Section::Text,
        reserved: 0,
        lent,
        line: 0,
    };
    let mut at = 0;
    for (line, bytes) in text.split(|byte| *byte == b'\n').enumerate() {
        reader.line = line;
        let raw = Piece { at, bytes };
        let statement = raw.cut(b';').cut(b'#').trim();
        if !statement.is_empty() {
            let done = reader.whole_line(statement, raw);
            done.map_err(|number| Refusal::new(number, line))?;
        }
        at += bytes.len() + 1;
    }
    Ok(reader.lines)
}

/// The directives that store something, refused in bss.
const STORING: [&str; 8] = [
    ".byte", ".half", ".word", ".dword", ".float", ".ascii", ".asciz", ".string",
];

const IGNORED: [&str; 7] = [
    ".type",
    ".size",
    ".file",
    ".ident",
    ".option",
    ".attribute",
    ".cfi_",
];

impl<'a> Reader<'a> {
    /// A line that is taken whole, or a label and what follows it. `raw` is the
    /// same line before it was cut.
    fn whole_line(&mut self, line: Piece<'a>, raw: Piece<'a>) -> Done {
        match line.bytes {
            b".text" => {
                mark!(LineText);
                self.section = Section::Text;
                return Ok(());
            }
            b".data" => {
                mark!(LineData);
                self.section = Section::Data;
                return Ok(());
            }
            b".bss" => {
                mark!(LineBss);
                self.section = Section::Bss;
                return Ok(());
            }
            _ => {}
        }
        if let Some(rest) = line.strip(".section") {
            return self.named_section(rest.trim().bytes);
        }
        if self.section == Section::Data {
            if let Some(string) = string_line(line, raw) {
                return self.string(string);
            }
        }
        let Some(colon) = line.find(b':') else {
            return self.statement(line);
        };
        self.label(line.before(colon).trim())?;
        let rest = line.after(colon + 1).trim();
        if rest.is_empty() {
            mark!(LabelAlone);
            return Ok(());
        }
        mark!(LabelThen);
        self.statement(rest)
    }

    fn named_section(&mut self, rest: &[u8]) -> Done {
        let end = rest.iter().position(|b| is_white(*b) || *b == b',');
        let name = &rest[..end.unwrap_or(rest.len())];
        if name.is_empty() {
            mark!(SectionMissing);
            return Err(2);
        }
        if name == b".note.GNU-stack" {
            mark!(SectionNote);
            return Ok(());
        }
        self.section = match name.strip_prefix(b".").unwrap_or(name) {
            b"text" => {
                mark!(SectionText);
                Section::Text
            }
            b"data" | b"rodata" | b"sdata" | b"srodata" => {
                mark!(SectionData);
                Section::Data
            }
            b"bss" | b"sbss" => {
                mark!(SectionBss);
                Section::Bss
            }
            _ => {
                mark!(SectionUnknown);
                return Err(3);
            }
        };
        Ok(())
    }

    fn place(&self) -> Place {
        let offset = match self.section {
            Section::Text => self.reserved * 4,
            Section::Data => self.lines.data.len() as u64,
            Section::Bss => self.lines.bss,
        };
        Place {
            section: self.section,
            offset,
        }
    }

    fn label(&mut self, name: Piece<'a>) -> Done {
        let labels = &self.lines.labels;
        let is_new = !labels.contains_key(name.bytes);
        if is_new && labels.len() == (self.lent.labels / LABEL_SIZE).min(1_024) {
            mark!(LabelsAbove);
            return Err(45);
        }
        match (is_new, self.section) {
            (false, _) => mark!(LabelAgain),
            (true, Section::Text) => mark!(LabelText),
            (true, Section::Data) => mark!(LabelData),
            (true, Section::Bss) => mark!(LabelBss),
        }
        if name.is_empty() {
            mark!(LabelEmpty);
        }
        let label = Label {
            at: name.at,
            line: self.line,
            place: self.place(),
        };
        // The last definition wins, its name's place included.
        self.lines.labels.insert(name.bytes, label);
        Ok(())
    }

    /// What follows any label: not empty, trimmed.
    fn statement(&mut self, statement: Piece<'a>) -> Done {
        let global = statement.strip(".globl");
        if let Some(rest) = global.or_else(|| statement.strip(".global")) {
            if rest.trim().is_empty() {
                mark!(GlobalMissing);
                return Err(4);
            }
            mark!(Global);
            return Ok(());
        }
        if IGNORED.iter().any(|name| statement.strip(name).is_some()) {
            mark!(Ignored);
            return Ok(());
        }
        let directive = statement.strip(".equ").or_else(|| statement.strip(".set"));
        if let Some(rest) = directive {
            return self.equ(rest.trim());
        }
        if statement.bytes[0] != b'.' {
            if let Some(sign) = statement.find(b'=') {
                let name = statement.before(sign).trim();
                let expression = statement.after(sign + 1).trim();
                if !name.is_empty() && !expression.is_empty() {
                    mark!(Assignment);
                    return self.equate(name, expression.bytes.to_vec());
                }
                mark!(NoAssignment);
            }
        }
        match self.section {
            Section::Text => self.item(statement),
            Section::Data => self.data(statement),
            Section::Bss => self.bss(statement),
        }
    }

    // ---------- equates ----------

    /// What follows `.equ` or `.set`: parted at the first comma, else at the
    /// first blank, where white-space runs then become one space.
    fn equ(&mut self, rest: Piece<'a>) -> Done {
        let (name, expression) = match rest.find(b',') {
            Some(comma) => {
                mark!(EquComma);
                let expression = rest.after(comma + 1).trim();
                (rest.before(comma).trim(), expression.bytes.to_vec())
            }
            None => {
                mark!(EquBlank);
                let blank = rest.bytes.iter().position(|b| is_white(*b));
                let length = blank.unwrap_or(rest.bytes.len());
                (rest.before(length), one_spaced(rest.after(length).bytes))
            }
        };
        if name.is_empty() || expression.is_empty() {
            match name.is_empty() {
                true => mark!(EquNoName),
                false => mark!(EquNoExpression),
            }
            return Err(5);
        }
        self.equate(name, expression)
    }

    fn equate(&mut self, name: Piece<'a>, expression: Vec<u8>) -> Done {
        if self.lines.equates.len() == (self.lent.equates / EQUATE_SIZE).min(256) {
            mark!(EquatesAbove);
            return Err(46);
        }
        match self.section {
            Section::Text => mark!(EquateText),
            Section::Data => mark!(EquateData),
            Section::Bss => mark!(EquateBss),
        }
        let place = self.place();
        self.lines.equates.push(Equate {
            name,
            expression,
            line: self.line,
            place,
            value: 0,
            round: 0,
        });
        Ok(())
    }

    // ---------- the text section ----------

    fn item(&mut self, source: Piece<'a>) -> Done {
        let (kind, words) = match pseudos::kind_of(source.bytes) {
            Kind::Refused => {
                mark!(OtherPseudo);
                return Err(21);
            }
            Kind::Ordinary => {
                mark!(ItemOrdinary);
                (0, 1)
            }
            Kind::Pseudo(kind) => {
                mark!(ItemPseudo);
                (kind, pseudos::reserved_words(kind, source.bytes))
            }
        };
        if self.lines.items.len() == (self.lent.items / ITEM_SIZE).min(2_048) {
            mark!(ItemsAbove);
            return Err(48);
        }
        if self.reserved + words > self.lent.words.min(16_384) as u64 {
            mark!(WordsAbove);
            return Err(44);
        }
        self.lines.items.push(Item {
            offset: self.reserved * 4,
            line: self.line,
            kind,
            source,
        });
        self.reserved += words;
        Ok(())
    }

    // ---------- the data section ----------

    fn data(&mut self, statement: Piece<'a>) -> Done {
        let bytes = statement.bytes;
        let after = |name: &str| bytes.strip_prefix(name.as_bytes());
        if let Some(rest) = after(".align") {
            let length = self.lines.data.len() as u64;
            let aligned = aligned(length, alignment(rest)?);
            return self.zeros(aligned - length);
        }
        if let Some(rest) = after(".byte") {
            for operand in rest.split(|b| *b == b',') {
                let value = within(operand, 255)?;
                mark!(Byte);
                self.store(&(value as u8).to_le_bytes())?;
            }
            return Ok(());
        }
        if let Some(rest) = after(".half") {
            for operand in rest.split(|b| *b == b',') {
                let value = within(operand, 65_535)?;
                mark!(Half);
                self.store(&(value as u16).to_le_bytes())?;
            }
            return Ok(());
        }
        if let Some(rest) = after(".word") {
            for operand in rest.split(|b| *b == b',') {
                self.word(trim(operand))?;
            }
            return Ok(());
        }
        if let Some(rest) = after(".dword") {
            for operand in rest.split(|b| *b == b',') {
                let Some(value) = imm64(operand) else {
                    mark!(DwordUnreadable);
                    return Err(6);
                };
                mark!(Dword);
                self.store(&value.to_le_bytes())?;
            }
            return Ok(());
        }
        if after(".float").is_some() {
            mark!(Float);
            return Err(21);
        }
        // W-201 leaves a line whose first quote stands inside its label.
        if let Some((rest, zeros)) = string_directive(statement) {
            let Some(inner) = string(rest.bytes) else {
                mark!(LabelQuotedBad);
                return Err(9);
            };
            mark!(LabelQuoted);
            return self.store(&[inner, zeros].concat());
        }
        if let Some(rest) = after(".space").or_else(|| after(".zero")) {
            return self.zeros(size(rest)?);
        }
        mark!(DataUnknown);
        Err(10)
    }

    /// W-201's line of a string: its label, then the string, then its room.
    fn string(&mut self, line: StringLine<'a>) -> Done {
        match line.label {
            Some(name) => {
                mark!(StringLabelled);
                self.label(name)?;
            }
            None => mark!(StringUnlabelled),
        }
        let Some(bytes) = display_string(line.operand.bytes) else {
            match line.zeros {
                [] => mark!(AsciiBad),
                _ => mark!(StringBad),
            }
            return Err(9);
        };
        match line.zeros {
            [] => mark!(Ascii),
            _ => mark!(StringZero),
        }
        self.store(&[&bytes, line.zeros].concat())
    }

    /// One operand of `.word`, trimmed.
    fn word(&mut self, operand: &'a [u8]) -> Done {
        if let Some(value) = imm(operand) {
            mark!(Word);
            return self.store(&value.to_le_bytes());
        }
        if !is_name(operand) {
            mark!(WordMalformed);
            return Err(8);
        }
        let at = self.lines.data.len();
        self.store(&[0; 4])?;
        if self.lines.label_words.len() == 1_024 {
            mark!(LabelWordsAbove);
            return Err(47);
        }
        mark!(LabelWord);
        self.lines.label_words.push(LabelWord {
            at,
            name: operand,
            line: self.line,
        });
        Ok(())
    }

    fn room(&self) -> u64 {
        self.lent.data.min(65_536) as u64
    }

    fn store(&mut self, bytes: &[u8]) -> Done {
        if self.lines.data.len() as u64 + bytes.len() as u64 > self.room() {
            mark!(DataAbove);
            return Err(42);
        }
        self.lines.data.extend_from_slice(bytes);
        Ok(())
    }

    fn zeros(&mut self, count: u64) -> Done {
        let length = self.lines.data.len() as u64 + count;
        if length > self.room() {
            mark!(ZerosAbove);
            return Err(42);
        }
        mark!(Zeros);
        self.lines.data.resize(length as usize, 0);
        Ok(())
    }

    // ---------- the bss section ----------

    fn bss(&mut self, statement: Piece<'a>) -> Done {
        let bytes = statement.bytes;
        let after = |name: &str| bytes.strip_prefix(name.as_bytes());
        let space = after(".space").or_else(|| after(".zero"));
        let end = if let Some(rest) = space.or_else(|| after(".skip")) {
            let size = size(rest)?;
            mark!(BssSpace);
            self.lines.bss + size
        } else if let Some(rest) = after(".align") {
            let alignment = alignment(rest)?;
            mark!(BssAlign);
            aligned(self.lines.bss, alignment)
        } else if STORING.iter().any(|name| after(name).is_some()) {
            mark!(BssStored);
            return Err(12);
        } else {
            mark!(BssUnknown);
            return Err(11);
        };
        if end > 1_048_576 {
            mark!(BssAbove);
            return Err(43);
        }
        self.lines.bss = end;
        Ok(())
    }
}

/// W-201's line of a string.
struct StringLine<'a> {
    label: Option<Piece<'a>>,
    /// What follows the directive's name, to the line's end.
    operand: Piece<'a>,
    zeros: &'static [u8],
}

/// "A line in the data section that begins, after an optional label whose colon
/// precedes the first quote, with `.ascii`, `.asciz` or `.string`." Comment marks
/// before the first quote still end the line: the quote is looked for in what
/// document 01's cut leaves.
fn string_line<'a>(line: Piece<'a>, raw: Piece<'a>) -> Option<StringLine<'a>> {
    let (label, statement) = match line.cut(b'"').find(b':') {
        Some(colon) => (
            Some(line.before(colon).trim()),
            line.after(colon + 1).trim(),
        ),
        None => (None, line),
    };
    let (rest, zeros) = string_directive(statement)?;
    Some(StringLine {
        label,
        operand: raw.after(rest.at - raw.at),
        zeros,
    })
}

/// What follows a string directive, and the zeros that it adds.
fn string_directive(statement: Piece<'_>) -> Option<(Piece<'_>, &'static [u8])> {
    let zero = statement.strip(".asciz");
    match zero.or_else(|| statement.strip(".string")) {
        Some(rest) => Some((rest, &[0])),
        None => Some((statement.strip(".ascii")?, &[])),
    }
}

/// A number from 0 to the largest: 6 if unreadable, 7 if outside.
fn within(operand: &[u8], largest: i32) -> Result<i32, u8> {
    match imm(operand) {
        Some(value) if (0..=largest).contains(&value) => Ok(value),
        Some(_) => {
            mark!(ValueOutside);
            Err(7)
        }
        None => {
            mark!(ValueUnreadable);
            Err(6)
        }
    }
}

fn alignment(operand: &[u8]) -> Result<u64, u8> {
    match imm(operand) {
        Some(value) if value >= 1 => Ok(value as u64),
        Some(_) => {
            mark!(AlignmentBelow);
            Err(7)
        }
        None => {
            mark!(AlignmentUnreadable);
            Err(6)
        }
    }
}

fn size(operand: &[u8]) -> Result<u64, u8> {
    match imm(operand) {
        Some(value) if value >= 0 => Ok(value as u64),
        Some(_) => {
            mark!(SizeBelow);
            Err(7)
        }
        None => {
            mark!(SizeUnreadable);
            Err(6)
        }
    }
}

/// Where a place comes to by `.align`; never below it.
fn aligned(place: u64, alignment: u64) -> u64 {
    let mask = alignment - 1;
    if place & mask == 0 {
        mark!(AlignStays);
        return place;
    }
    mark!(AlignMoves);
    if alignment & mask != 0 {
        mark!(AlignNoPower);
    }
    (place + mask) & !mask
}

/// A name that `.word` takes.
fn is_name(operand: &[u8]) -> bool {
    let is_first = |b: &u8| b.is_ascii_alphabetic() || *b == b'_' || *b == b'.';
    operand.first().is_some_and(is_first)
        && operand.iter().all(|b| is_first(b) || b.is_ascii_digit())
}
