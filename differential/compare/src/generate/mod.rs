//! Sources for the comparison, each made anew from a seed, a kind and a number.

pub mod edges;
pub mod grammar;
pub mod hostile;
pub mod limits;
pub mod many;
pub mod mutate;
mod named;
pub mod parts;
pub mod rounds;
pub mod settings;
pub mod short;
pub mod strings;

use differential::random::Random;

use crate::model::Lent;
use crate::pool;

/// A call: what the caller gives and lends.
#[derive(Clone, Debug)]
pub struct Case {
    pub text: Vec<u8>,
    pub base: u32,
    pub lent: Lent,
    /// How many counts are lent; the call has nine.
    pub counts: usize,
}

#[derive(Clone, Copy, Debug, PartialEq, Eq, PartialOrd, Ord)]
pub enum Kind {
    /// Lines of every kind.
    Lines,
    /// Equates, their chains and sums.
    Equates,
    /// Data and bss directives.
    Data,
    /// Pseudo-instructions and labels.
    Pseudos,
    /// Accepted sources, changed.
    Mutate,
    /// Many names, each looked up.
    Many,
    /// The sources that `differential` builds by topic.
    Built,
    /// All short texts over a topic's alphabet.
    Short,
    /// Every limit, at it and one over.
    Limits,
    /// Bytes of every kind.
    Hostile,
    /// Lines of strings.
    Strings,
}

impl Kind {
    pub const ALL: [Kind; 11] = [
        Kind::Lines,
        Kind::Equates,
        Kind::Data,
        Kind::Pseudos,
        Kind::Mutate,
        Kind::Many,
        Kind::Built,
        Kind::Short,
        Kind::Limits,
        Kind::Hostile,
        Kind::Strings,
    ];

    pub fn name(self) -> &'static str {
        match self {
            Kind::Lines => "lines",
            Kind::Equates => "equates",
            Kind::Data => "data",
            Kind::Pseudos => "pseudos",
            Kind::Mutate => "mutate",
            Kind::Many => "many",
            Kind::Built => "built",
            Kind::Short => "short",
            Kind::Limits => "limits",
            Kind::Hostile => "hostile",
            Kind::Strings => "strings",
        }
    }

    pub fn named(name: &str) -> Option<Kind> {
        Kind::ALL.into_iter().find(|kind| kind.name() == name)
    }

    /// How many different sources there are, where that is a number.
    pub fn total(self) -> Option<u64> {
        match self {
            Kind::Built => Some(pool::built().len() as u64),
            Kind::Short => Some(short::total()),
            Kind::Limits => Some(limits::total()),
            _ => None,
        }
    }
}

/// What the sources are made of besides the seed.
pub struct Generator {
    seed: u64,
    pool: mutate::Pool,
}

impl Generator {
    pub fn new(seed: u64, pool: mutate::Pool) -> Self {
        Generator { seed, pool }
    }

    /// The source of that kind and number.
    pub fn case(&self, kind: Kind, index: u64) -> Case {
        let mut random = random_of(self.seed, kind, index);
        let text = match kind {
            Kind::Lines => grammar::text(&mut random, grammar::Topic::Lines),
            Kind::Equates => grammar::text(&mut random, grammar::Topic::Equates),
            Kind::Data => grammar::text(&mut random, grammar::Topic::Data),
            Kind::Pseudos => grammar::text(&mut random, grammar::Topic::Pseudos),
            Kind::Mutate => self.pool.text(&mut random),
            Kind::Many => many::text(&mut random),
            Kind::Built => {
                let (text, base) = pool::built()[index as usize % pool::built().len()].clone();
                return Case {
                    text: text.into_bytes(),
                    base,
                    lent: Lent::FULL,
                    counts: 9,
                };
            }
            Kind::Short => {
                // All of them are compared, none hidden by what is lent.
                return Case {
                    text: short::text(index % short::total()),
                    base: 0,
                    lent: settings::AMPLE,
                    counts: 9,
                };
            }
            Kind::Limits => return limits::case(index % limits::total()),
            Kind::Hostile => hostile::text(&mut random),
            Kind::Strings => strings::text(&mut random),
        };
        let base = settings::base(&mut random);
        let lent = match kind {
            Kind::Many => settings::long(&mut random),
            Kind::Strings => strings::lent(&mut random, &text, base),
            Kind::Pseudos => settings::lent_words(&mut random, &text, base),
            _ => settings::lent(&mut random),
        };
        let counts = settings::counts(&mut random);
        Case {
            text,
            base,
            lent,
            counts,
        }
    }
}

/// One generator a source, so that each can be made again by itself. The seed is
/// mixed before the number meets it: else another seed would make the same
/// sources in another order.
fn random_of(seed: u64, kind: Kind, index: u64) -> Random {
    Random::new(mixed(mixed(seed) ^ (kind as u64) << 56 ^ index) | 1)
}

fn mixed(number: u64) -> u64 {
    let mut mixed = number;
    for factor in [0xBF58_476D_1CE4_E5B9, 0x94D0_49BB_1331_11EB] {
        mixed = mixed.wrapping_add(0x9E37_79B9_7F4A_7C15);
        mixed = (mixed ^ mixed >> 30).wrapping_mul(factor);
    }
    mixed ^ mixed >> 31
}

#[cfg(test)]
mod tests {
    use std::collections::HashSet;

    use super::*;

    #[test]
    fn another_seed_makes_other_sources() {
        let first = |seed| -> HashSet<u64> {
            let numbers = (0..10_000).map(|index| random_of(seed, Kind::Lines, index).next());
            numbers.collect()
        };
        assert!(first(1).is_disjoint(&first(2)));
    }
}
