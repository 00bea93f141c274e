//! The fixed list: sources with their whole answers, chosen so that every
//! branch of the model is gone through, with every refusal that it was seen
//! with, and in every pair that was seen.

use std::collections::{BTreeMap, BTreeSet, HashMap, HashSet};
use std::io;

use crate::generate::{edges, Case, Generator, Kind};
use crate::model::marks::{self, Seen};
use crate::model::{Answer, Lent};
use crate::pool;
use crate::run::{escape, Comparison};

/// Document 01's numbered cases, those with several sources in parts.
const NUMBERED: [&str; 19] = [
    "",
    "li a0, 2047",
    "li a0, 2048",
    "li a0, 0x7FFFF800",
    "li a0, 4294967295",
    "n = 4294967295\nli a0, n",
    "push ra",
    "pop ra",
    ".data\n.byte 1\n.align 3",
    ".data\n.byte 1, 2\n.align 3",
    ".data\n.byte 1, 2, 3\n.align 3",
    ".data\n.byte --5",
    ".data\n.byte 256",
    ".data\n.dword -9223372036854775808",
    ".data\n.dword +-9223372036854775808",
    "a = b+1\nb = c+1\nc = 5",
    "a = b\nb = a",
    ".data\nt: .byte 1\nt: .byte 2\n.word t",
    "push ra\npop ra",
];

/// A line of the list has fewer bytes than this.
const LONGEST_LINE: usize = 60_000;

/// A source at a limit is listed if its line has fewer bytes than this; at base
/// 0 a longer one too.
const LIMIT_LINE: usize = 8_000;

/// So many of the sources built by topic are listed for their way alone.
const WAYS: usize = 1_000;

/// The sources of each random kind that are looked at.
const LOOKED_AT: u64 = 400_000;

/// The sources of the kind `short` that are looked at.
const SHORT_LOOKED_AT: u64 = 600_000;

/// What a source shows.
#[derive(Clone, Copy, PartialEq, Eq, Hash, PartialOrd, Ord)]
enum Feature {
    /// A branch, and the answer's number.
    Number(u8, u8),
    /// Two branches, of an accepted source or of a refused one.
    Pair(u8, u8, bool),
}

fn features(seen: &Seen, number: u8) -> Vec<Feature> {
    let marks: Vec<u8> = seen.all().map(|mark| mark as u8).collect();
    let mut features = Vec::with_capacity(marks.len() * (marks.len() + 1) / 2);
    for (place, mark) in marks.iter().enumerate() {
        features.push(Feature::Number(*mark, number));
        for other in &marks[..place] {
            features.push(Feature::Pair(*other, *mark, number == 0));
        }
    }
    features
}

/// A line of the list: the call and its answer.
pub fn line(case: &Case, answer: &Answer) -> String {
    let Lent {
        words,
        data,
        labels,
        equates,
        items,
    } = case.lent;
    let counts = answer.counts;
    let numbers = [
        u64::from(case.base),
        words as u64,
        data as u64,
        labels as u64,
        equates as u64,
        items as u64,
        u64::from(answer.number),
        u64::from(answer.line),
        counts.words,
        counts.data_bytes,
        counts.data_base,
        counts.bss_size,
        counts.labels,
        counts.equates,
        counts.items,
        counts.evaluations,
    ];
    let mut fields = vec![escape(&case.text)];
    fields.extend(numbers.iter().map(u64::to_string));
    let words: Vec<u8> = answer
        .words
        .iter()
        .flat_map(|word| word.to_le_bytes())
        .collect();
    let buffers = [
        &words,
        &answer.data,
        &answer.labels,
        &answer.equates,
        &answer.items,
    ];
    fields.extend(buffers.iter().map(|bytes| escape(bytes)));
    fields.join("\t") + "\n"
}

/// How long a line will be, without making it.
fn length(case: &Case, answer: &Answer) -> usize {
    let escaped = |bytes: &[u8]| -> usize {
        let visible = bytes
            .iter()
            .filter(|byte| (33..=126).contains(*byte) && **byte != b'%');
        3 * bytes.len() - 2 * visible.count()
    };
    escaped(&case.text)
        + escaped(&answer.data)
        + escaped(&answer.labels)
        + escaped(&answer.equates)
        + escaped(&answer.items)
        + 12 * answer.words.len()
        + 120
}

/// Where a candidate comes from, so that it can be made again.
#[derive(Clone)]
enum Origin {
    Made(Kind, u64),
    Given(Box<Case>),
}

struct Chooser<'g> {
    generator: &'g Generator,
    comparison: Comparison,
    /// For each feature the shortest line that has it.
    best: HashMap<Feature, (usize, usize)>,
    origins: Vec<Origin>,
    findings: Vec<String>,
    looked_at: u64,
}

/// What is in a list, and what it covers.
pub struct List {
    pub text: String,
    pub cases: usize,
    pub looked_at: u64,
    pub by_number: BTreeMap<u8, usize>,
    pub marks: usize,
    pub pairs_with_numbers: usize,
    pub pairs_of_marks: usize,
    pub longest: usize,
    pub findings: Vec<String>,
}

pub fn list(generator: &Generator) -> io::Result<List> {
    let mut chooser = Chooser {
        generator,
        comparison: Comparison::new(),
        best: HashMap::new(),
        origins: Vec::new(),
        findings: Vec::new(),
        looked_at: 0,
    };
    // What is always in the list.
    let full = |text: Vec<u8>, base: u32| Case {
        text,
        base,
        lent: Lent::FULL,
        counts: 9,
    };
    let mut wanted: Vec<Case> = NUMBERED
        .iter()
        .map(|text| full(text.as_bytes().to_vec(), 0))
        .collect();
    wanted.extend(edges::cases());
    wanted.extend(pool::examples()?.into_iter().map(|text| full(text, 0)));
    let limits =
        (0..Kind::Limits.total().unwrap_or(0)).map(|index| generator.case(Kind::Limits, index));
    wanted.extend(limits.filter(|case| chooser.is_short(case)));
    // Of the sources built by topic those that go another way than any before,
    // the shortest first.
    let built =
        (0..Kind::Built.total().unwrap_or(0)).map(|index| generator.case(Kind::Built, index));
    let mut built: Vec<Case> = built.collect();
    built.sort_by_key(|case| case.text.len());
    let mut ways = HashSet::new();
    for case in built {
        marks::take();
        let number = chooser.comparison.compare(&case, true).model.number;
        if ways.len() < WAYS && ways.insert((marks::take(), number)) {
            wanted.push(case);
        }
    }
    // What else is looked at.
    for case in &wanted {
        chooser.look(Origin::Given(Box::new(case.clone())));
    }
    for kind in Kind::ALL {
        let total = kind.total();
        let count = match kind {
            Kind::Short => SHORT_LOOKED_AT,
            // Its lines are too long for the list.
            Kind::Many => 0,
            _ => total.unwrap_or(LOOKED_AT),
        };
        for number in 0..count {
            let index = match total {
                Some(total) => number * total / count,
                None => number,
            };
            chooser.look(Origin::Made(kind, index));
        }
    }
    Ok(chooser.choose(wanted))
}

impl Chooser<'_> {
    fn case(&self, origin: &Origin) -> Case {
        match origin {
            Origin::Made(kind, index) => self.generator.case(*kind, *index),
            Origin::Given(case) => (**case).clone(),
        }
    }

    fn is_short(&mut self, case: &Case) -> bool {
        let answer = self.comparison.compare(case, false).model;
        let longest = if case.base == 0 {
            LONGEST_LINE
        } else {
            LIMIT_LINE
        };
        is_lent(case) && length(case, &answer) < longest
    }

    /// Keeps a candidate for the features that it is the shortest for.
    fn look(&mut self, origin: Origin) {
        let case = self.case(&origin);
        if !is_lent(&case) {
            return;
        }
        self.looked_at += 1;
        marks::take();
        let outcome = self.comparison.compare(&case, false);
        let seen = marks::take();
        if let Some(finding) = outcome.finding {
            self.findings
                .push(format!("{}: {finding}", escape(&case.text)));
            return;
        }
        let length = length(&case, &outcome.model);
        if length >= LONGEST_LINE {
            return;
        }
        let mut place = None;
        for feature in features(&seen, outcome.model.number) {
            let known = self.best.get(&feature);
            if known.is_some_and(|(shortest, _)| *shortest <= length) {
                continue;
            }
            let place = *place.get_or_insert_with(|| {
                self.origins.push(origin.clone());
                self.origins.len() - 1
            });
            self.best.insert(feature, (length, place));
        }
    }

    /// The wanted ones, and then for each feature that is not covered yet its
    /// shortest source: pairs with numbers first.
    fn choose(mut self, wanted: Vec<Case>) -> List {
        let mut chosen = BTreeSet::new();
        let mut covered = HashSet::new();
        for case in wanted {
            self.take(case, &mut chosen, &mut covered);
        }
        let mut open: Vec<_> = self
            .best
            .iter()
            .map(|(feature, (length, place))| (*feature, *length, *place))
            .collect();
        // The longest first: it covers many that need no source of their own.
        open.sort_by_key(|(feature, length, place)| {
            (
                matches!(feature, Feature::Pair(..)),
                usize::MAX - length,
                *place,
                *feature,
            )
        });
        for (feature, _, place) in open {
            if !covered.contains(&feature) {
                let case = self.case(&self.origins[place]);
                self.take(case, &mut chosen, &mut covered);
            }
        }
        let mut list = List {
            text: String::new(),
            cases: chosen.len(),
            looked_at: self.looked_at,
            by_number: BTreeMap::new(),
            marks: 0,
            pairs_with_numbers: 0,
            pairs_of_marks: 0,
            longest: 0,
            findings: self.findings,
        };
        for (_, number, line) in &chosen {
            *list.by_number.entry(*number).or_default() += 1;
            list.longest = list.longest.max(line.len());
            list.text.push_str(line);
        }
        let mut marks = HashSet::new();
        for feature in &covered {
            match feature {
                Feature::Number(mark, _) => {
                    marks.insert(*mark);
                    list.pairs_with_numbers += 1;
                }
                Feature::Pair(..) => list.pairs_of_marks += 1,
            }
        }
        list.marks = marks.len();
        list
    }

    fn take(
        &mut self,
        case: Case,
        chosen: &mut BTreeSet<(usize, u8, String)>,
        covered: &mut HashSet<Feature>,
    ) {
        marks::take();
        let outcome = self.comparison.compare(&case, true);
        let seen = marks::take();
        let line = line(&case, &outcome.model);
        assert!(line.len() < LONGEST_LINE, "a line of {} bytes", line.len());
        covered.extend(features(&seen, outcome.model.number));
        if let Some(finding) = outcome.finding {
            self.findings
                .push(format!("{}: {finding}", escape(&case.text)));
        }
        chosen.insert((case.text.len(), outcome.model.number, line));
    }
}

/// Whether no more is lent than any limit asks for.
fn is_lent(case: &Case) -> bool {
    let (lent, full) = (case.lent, Lent::FULL);
    lent.words <= full.words
        && lent.data <= full.data
        && lent.labels <= full.labels
        && lent.equates <= full.equates
        && lent.items <= full.items
}
