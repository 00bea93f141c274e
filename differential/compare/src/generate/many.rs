//! Many names: tables filled a good way or to the brim, and every name looked
//! up, so that whatever finds names has to part them.

use differential::random::Random;

/// How names are made: from few letters, so that many are alike.
const LETTERS: [&str; 5] = ["ab", "a_.", "xyz0", "abcdefgh", "n0123456789"];

pub fn text(random: &mut Random) -> Vec<u8> {
    let labels = match random.below(12) {
        0 => 1_024,
        1 => 1_000 + random.below(30),
        _ => 1 + random.below(160),
    };
    let equates = match random.below(12) {
        0 => 250 + random.below(10),
        _ => random.below(60),
    };
    let names = names(random, labels + equates);
    let (labels, equates) = names.split_at(labels);
    let mut text = String::new();
    let mut defined: Vec<usize> = (0..labels.len()).collect();
    shuffle(random, &mut defined);
    let mut pending: Vec<usize> = (0..equates.len()).collect();
    match random.below(3) {
        0 => {}
        1 => pending.reverse(),
        _ => shuffle(random, &mut pending),
    }
    let again = random.below(4) == 0;
    // Items are at most 2,048, label words at most 1,024, whatever comes.
    let mut uses = 0;
    while !defined.is_empty() || !pending.is_empty() {
        match random.below(8) {
            0 => text.push_str(random.pick(&[".text\n", ".data\n", ".bss\n", ".text\n"])),
            1..=4 => {
                if let Some(label) = defined.pop() {
                    text.push_str(&labels[label]);
                    text.push_str(":\n");
                    if again && random.below(6) == 0 {
                        defined.insert(random.below(defined.len() + 1), label);
                    }
                }
            }
            5..=6 => {
                if let Some(equate) = pending.pop() {
                    let used = match equate {
                        0 => "7".to_string(),
                        _ if random.below(3) == 0 => labels[random.below(labels.len())].clone(),
                        _ => equates[random.below(equate)].clone(),
                    };
                    // A name that begins with a dot is defined by `.equ` alone.
                    let name = &equates[equate];
                    match name.starts_with('.') {
                        true => text.push_str(&format!(".equ {name},{used}+1\n")),
                        false => text.push_str(&format!("{name}={used}+1\n")),
                    }
                }
            }
            _ => {
                uses += 1;
                if uses > 900 {
                    continue;
                }
                let label = &labels[random.below(labels.len())];
                let line = match random.below(4) {
                    0 => format!(".data\n.word {label},{label}\n"),
                    1 if !equates.is_empty() => {
                        format!(".text\nli a0,{}\n", equates[random.below(equates.len())])
                    }
                    _ => format!(".text\nla a0,{label}\n"),
                };
                text.push_str(&line);
            }
        }
    }
    text.push_str(".text\n");
    for _ in 0..random.below(20) {
        if let Some(last) = equates.len().checked_sub(1) {
            text.push_str(&format!("li a0,{}\n", equates[random.below(last + 1)]));
        }
    }
    // One name that is not there, rarely.
    if random.below(16) == 0 {
        text.push_str(random.pick(&[
            "la a0,none\n",
            "li a0,none\n",
            "none=none\n",
            ".data\n.word none\n",
        ]));
    }
    text.into_bytes()
}

/// Distinct names, each with a letter first.
fn names(random: &mut Random, count: usize) -> Vec<String> {
    let letters = LETTERS[random.below(LETTERS.len())].as_bytes();
    let mut names = Vec::with_capacity(count);
    let before = random.pick(&["", "", "long_common_beginning_of_all_names_", "."]);
    let mut number = random.below(1000);
    for _ in 0..count {
        let mut name = format!("{before}{}", letters[0] as char);
        let mut left = number;
        while left > 0 {
            name.push(letters[left % letters.len()] as char);
            left /= letters.len();
        }
        // Two numbers may have names that only differ behind.
        name.push('t');
        names.push(name);
        number += 1 + random.below(3);
    }
    names
}

fn shuffle(random: &mut Random, order: &mut [usize]) {
    for place in (1..order.len()).rev() {
        order.swap(place, random.below(place + 1));
    }
}
