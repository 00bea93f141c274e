//! Bases and what is lent.

use differential::random::Random;

use crate::model::{self, Lent, EQUATE_SIZE, ITEM_SIZE, LABEL_SIZE};

/// Bases near which an address has an edge: those of la, of base + 0x1000 and
/// of refusal 40.
const EDGES: [u32; 12] = [
    1,
    0x1000,
    0x7FFF_E000,
    0x7FFF_E7F0,
    0x7FFF_F000,
    0x7FFF_F7F8,
    0x7FFF_F800,
    0x7FFF_FFFC,
    0x8000_0000,
    0xFEFF_FFF0,
    0xFF00_0000,
    0xFFFF_F000,
];

pub fn base(random: &mut Random) -> u32 {
    match random.below(20) {
        0..=11 => 0,
        12..=13 => random.next() as u32 & 0x7FFF_FFFF,
        14..=15 => random.next() as u32,
        16..=18 => {
            let edge = EDGES[random.below(EDGES.len())];
            edge.wrapping_add(random.below(64) as u32).wrapping_sub(16)
        }
        _ => EDGES[random.below(EDGES.len())],
    }
}

/// Room for any of the small sources, without a long buffer to clear.
pub const AMPLE: Lent = Lent {
    words: 512,
    data: 2_048,
    labels: 64 * LABEL_SIZE,
    equates: 64 * EQUATE_SIZE,
    items: 128 * ITEM_SIZE,
};

pub fn lent(random: &mut Random) -> Lent {
    match random.below(64) {
        0 => Lent::FULL,
        1 => Lent {
            words: 0,
            data: 0,
            labels: 0,
            equates: 0,
            items: 0,
        },
        2..=5 => Lent {
            words: random.below(12),
            data: random.below(24),
            labels: random.below(5 * LABEL_SIZE),
            equates: random.below(5 * EQUATE_SIZE),
            items: random.below(6 * ITEM_SIZE),
        },
        6..=13 => one_short(random),
        _ => AMPLE,
    }
}

/// For one in eight just the words that an accepted text takes, one less or one
/// more.
pub fn lent_words(random: &mut Random, text: &[u8], base: u32) -> Lent {
    if random.below(8) != 0 {
        return lent(random);
    }
    let answer = model::assemble(text, base, Lent::FULL).0;
    match answer.number {
        0 => Lent {
            words: (answer.words.len() + 1).saturating_sub(random.below(3)),
            ..AMPLE
        },
        _ => AMPLE,
    }
}

/// For long sources: mostly the full size, or one buffer less than that.
pub fn long(random: &mut Random) -> Lent {
    let mut lent = Lent::FULL;
    match random.below(16) {
        0 => lent.words = random.below(lent.words),
        1 => lent.data = random.below(lent.data),
        2 => lent.labels = random.below(lent.labels),
        3 => lent.equates = random.below(lent.equates),
        4 => lent.items = random.below(lent.items),
        _ => {}
    }
    lent
}

/// One buffer short, the others ample: so many whole records, one byte less
/// or one more.
fn one_short(random: &mut Random) -> Lent {
    let mut lent = AMPLE;
    let short = |random: &mut Random, size: usize, most: usize| {
        let records = size * random.below(most);
        (records + random.below(3)).saturating_sub(1)
    };
    match random.below(5) {
        0 => lent.words = random.below(24),
        1 => lent.data = random.below(40),
        2 => lent.labels = short(random, LABEL_SIZE, 6),
        3 => lent.equates = short(random, EQUATE_SIZE, 6),
        _ => lent.items = short(random, ITEM_SIZE, 8),
    }
    lent
}

/// Mostly the call's nine counts; sometimes fewer or more.
pub fn counts(random: &mut Random) -> usize {
    match random.below(16) {
        0 => random.below(14),
        _ => 9,
    }
}
