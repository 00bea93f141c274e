//! The comparison of many sources, with its counts and its findings.

use std::collections::BTreeMap;

use crate::generate::{Case, Generator, Kind};
use crate::minimize::minimize;
use crate::model::{self, marks, Answer};
#[cfg(feature = "library")]
use crate::ours::Ours;
use crate::reference::{hold, Held};

/// Compares a case with everything that is there.
pub struct Comparison {
    #[cfg(feature = "library")]
    ours: Ours,
}

/// What came of one case.
pub struct Outcome {
    pub model: Answer,
    /// Why the reference was not compared; none if it was.
    pub out: Option<&'static str>,
    pub finding: Option<String>,
}

impl Comparison {
    pub fn new() -> Self {
        differential::asking::silence_panics();
        Comparison {
            #[cfg(feature = "library")]
            ours: Ours::new(),
        }
    }

    pub fn compare(&mut self, case: &Case, probe: bool) -> Outcome {
        let (model, trace) = model::assemble(&case.text, case.base, case.lent);
        let finding = self.ours_differs(case, &model);
        let finding = finding.or_else(|| misplaced(case, &model));
        if finding.is_some() {
            return Outcome {
                model,
                out: None,
                finding,
            };
        }
        let (out, finding) = match hold(&case.text, case.base, &model, &trace, probe) {
            Held::Same => (None, None),
            Held::Out(reason) => (Some(reason), None),
            Held::Differs(difference) => (None, Some(format!("reference: {difference}"))),
        };
        Outcome {
            model,
            out,
            finding,
        }
    }

    #[cfg(feature = "library")]
    fn ours_differs(&mut self, case: &Case, model: &Answer) -> Option<String> {
        let difference = self
            .ours
            .differs(&case.text, case.base, case.lent, case.counts, model);
        difference.map(|difference| format!("ours: {difference}"))
    }

    #[cfg(not(feature = "library"))]
    fn ours_differs(&mut self, _: &Case, _: &Answer) -> Option<String> {
        None
    }
}

/// What W-202 says of every accepted layout, and the reference does not show: it
/// has no index of an item's first word.
fn misplaced(case: &Case, model: &Answer) -> Option<String> {
    let item = model.misplaced(case.base)?;
    Some(format!("model: item {item} is not where its first word is"))
}

impl Default for Comparison {
    fn default() -> Self {
        Self::new()
    }
}

/// What a run counted.
#[derive(Default)]
pub struct Tally {
    pub texts: u64,
    pub same: u64,
    pub by_number: BTreeMap<u8, u64>,
    pub by_kind: BTreeMap<Kind, u64>,
    pub by_reason: BTreeMap<&'static str, u64>,
    pub marks: BTreeMap<usize, u64>,
    pub findings: u64,
}

/// No more findings than these are made smaller and printed.
const SHOWN: u64 = 20;

/// Of so many sources one has its equates' values asked for.
const PROBED: u64 = 4;

pub fn run(generator: &Generator, parts: &[(Kind, u64)]) -> Tally {
    let mut comparison = Comparison::new();
    let mut tally = Tally::default();
    for (kind, count) in parts {
        for index in 0..*count {
            // Fewer than all of a fixed number of sources are spread over them.
            let index = match kind.total() {
                Some(total) if *count < total => {
                    (u128::from(index) * u128::from(total) / u128::from(*count)) as u64
                }
                _ => index,
            };
            let case = generator.case(*kind, index);
            marks::take();
            let outcome = comparison.compare(&case, index % PROBED == 0);
            tally.count(*kind, &outcome);
            if let Some(finding) = outcome.finding {
                tally.findings += 1;
                if tally.findings <= SHOWN {
                    show(&mut comparison, &case, *kind, index, &finding);
                }
            }
        }
    }
    tally
}

/// The first word of a finding: who differs.
fn class(finding: &str) -> &str {
    finding.split(':').next().unwrap_or("")
}

fn show(comparison: &mut Comparison, case: &Case, kind: Kind, index: u64, finding: &str) {
    let smallest = minimize(&case.text, |text| {
        let smaller = Case {
            text: text.to_vec(),
            ..case.clone()
        };
        let outcome = comparison.compare(&smaller, true);
        outcome
            .finding
            .is_some_and(|found| class(&found) == class(finding))
    });
    let smaller = Case {
        text: smallest.clone(),
        ..case.clone()
    };
    let outcome = comparison.compare(&smaller, true);
    println!("FINDING in {} {index}: {finding}", kind.name());
    println!(
        "  base {:#x}, lent {:?}, counts {}",
        case.base, case.lent, case.counts
    );
    println!("  text {}", escape(&smallest));
    println!("  then {}", outcome.finding.unwrap_or_default());
    println!("  model {} at {}", outcome.model.number, outcome.model.line);
}

/// The bytes as a field of a list.
pub fn escape(bytes: &[u8]) -> String {
    let mut field = String::with_capacity(bytes.len());
    for byte in bytes {
        match byte {
            33..=126 if *byte != b'%' => field.push(*byte as char),
            _ => field.push_str(&format!("%{byte:02X}")),
        }
    }
    field
}

impl Tally {
    fn count(&mut self, kind: Kind, outcome: &Outcome) {
        self.texts += 1;
        *self.by_kind.entry(kind).or_default() += 1;
        *self.by_number.entry(outcome.model.number).or_default() += 1;
        match outcome.out {
            Some(reason) => *self.by_reason.entry(reason).or_default() += 1,
            None => self.same += 1,
        }
        for mark in marks::take().all() {
            *self.marks.entry(mark).or_default() += 1;
        }
    }

    pub fn print(&self) {
        println!("{:>12} texts", self.texts);
        println!("by kind");
        for (kind, count) in &self.by_kind {
            println!("{count:>12} {}", kind.name());
        }
        println!("by the model's number");
        for (number, count) in &self.by_number {
            println!("{count:>12} {number}");
        }
        println!("against the reference");
        println!("{:>12} on the domain", self.same);
        for (reason, count) in &self.by_reason {
            println!("{count:>12} outside: {reason}");
        }
        let missed = (0..marks::NAMES.len()).filter(|mark| !self.marks.contains_key(mark));
        let missed: Vec<&str> = missed.map(|mark| marks::NAMES[mark]).collect();
        println!(
            "branches of the model: {} of {}; missed: {missed:?}",
            self.marks.len(),
            marks::NAMES.len()
        );
        println!("{} findings", self.findings);
    }
}
