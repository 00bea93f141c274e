//! Accepted sources, cut into pieces and changed.

use differential::random::Random;

/// The lines of the sources to change.
pub struct Pool {
    sources: Vec<Vec<Vec<u8>>>,
}

impl Pool {
    pub fn new(texts: Vec<Vec<u8>>) -> Self {
        let lines = |text: Vec<u8>| {
            text.split_inclusive(|b| *b == b'\n')
                .map(<[u8]>::to_vec)
                .collect()
        };
        let sources: Vec<Vec<Vec<u8>>> = texts.into_iter().map(lines).collect();
        Pool {
            sources: sources
                .into_iter()
                .filter(|lines| !lines.is_empty())
                .collect(),
        }
    }

    /// Some lines in a row of one source, changed a few times.
    pub fn text(&self, random: &mut Random) -> Vec<u8> {
        let mut lines = self.piece(random);
        // Data that is cut out is put where data may be.
        if random.below(4) == 0 {
            lines.insert(
                0,
                random
                    .pick(&[b".data\n" as &[u8], b".bss\n", b".text\n"])
                    .to_vec(),
            );
        }
        if random.below(6) == 0 {
            lines.extend(self.piece(random));
        }
        for _ in 0..random.below(4) {
            change_lines(&mut lines, random);
        }
        let mut text = lines.concat();
        for _ in 0..random.below(4) {
            change_bytes(&mut text, random);
        }
        text
    }

    fn piece(&self, random: &mut Random) -> Vec<Vec<u8>> {
        let Some(count) = self.sources.len().checked_sub(1) else {
            return Vec::new();
        };
        let source = &self.sources[random.below(count + 1)];
        let start = random.below(source.len());
        let length = 1 + random.below(12);
        let end = (start + length).min(source.len());
        source[start..end].to_vec()
    }
}

fn change_lines(lines: &mut Vec<Vec<u8>>, random: &mut Random) {
    if lines.is_empty() {
        return;
    }
    let (one, other) = (random.below(lines.len()), random.below(lines.len()));
    match random.below(4) {
        0 => {
            lines.remove(one);
        }
        1 => {
            let line = lines[one].clone();
            lines.insert(other, line);
        }
        2 => lines.swap(one, other),
        _ => swap_words(lines, one, other, random),
    }
}

/// A word of one line and a word of another change places.
fn swap_words(lines: &mut [Vec<u8>], one: usize, other: usize, random: &mut Random) {
    let word = |line: &[u8], random: &mut Random| {
        let ends = |b: &u8| b" \t\n,:=".contains(b);
        let from = random.below(line.len().max(1));
        let length = line[from..].iter().take_while(|b| !ends(b)).count();
        (from, from + length)
    };
    let (from, to) = word(&lines[one], random);
    let (start, end) = word(&lines[other], random);
    let (mine, yours) = (
        lines[one][from..to].to_vec(),
        lines[other][start..end].to_vec(),
    );
    if one != other {
        lines[one].splice(from..to, yours);
        lines[other].splice(start..end, mine);
    }
}

/// Bytes that mean something somewhere.
const TELLING: &[u8] = b" \t\n\r\x0b\x0c,:;#=+-.'\"()0123456789xXbaAli_$\\\0\x7f";

pub fn change_bytes(text: &mut Vec<u8>, random: &mut Random) {
    if text.is_empty() {
        return;
    }
    let place = random.below(text.len());
    match random.below(6) {
        0 => text[place] ^= 1 << random.below(7),
        1 => {
            text.remove(place);
        }
        2 => text.insert(place, TELLING[random.below(TELLING.len())]),
        3 => text[place] = TELLING[random.below(TELLING.len())],
        4 => {
            let byte = text[place];
            text.insert(place, byte);
        }
        _ => {
            let other = random.below(text.len());
            text.swap(place, other);
        }
    }
}
