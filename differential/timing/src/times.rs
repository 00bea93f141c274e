//! Times of a call: the median of many rounds, in which each contender has its
//! turn. The rounds are spread over several passes through all sources, so that
//! what else runs on the machine for a while is not all on one source. It is
//! this thread's time on the processor, so that other programs count less.

use std::hint::black_box;
use std::time::Duration;

use timing::figures::{grouped, ratio};
use timing::ours::Buffers;
use timing::reference;
use timing::sources::{Goal, Source};

const PASSES: usize = 5;

/// In each pass. With an odd number of both, one round is the median.
const ROUNDS: usize = 9;

/// What the calls of one contender's turn take together, at least.
const TURN: Duration = Duration::from_millis(2);

/// Ours, the reference's, and its comment scans': a call's time in seconds. The
/// reference has none where ours is measured alone.
type Times = [f64; 3];

/// Prints the table; gives how many times as fast ours is on each source, which
/// is no number where ours is measured alone.
pub fn table(sources: &[Source]) -> Vec<f64> {
    let times = median_times(sources);
    println!("| source | bytes | ours, µs | reference, µs | its comment scans, µs | times as fast | without the scans | goal |");
    println!("|---|---|---|---|---|---|---|---|");
    sources
        .iter()
        .zip(times)
        .map(|(source, times)| row(source, times))
        .collect()
}

fn row(source: &Source, [ours, theirs, scans]: Times) -> f64 {
    let bytes = grouped(source.text.len() as u64);
    if source.goal == Goal::Alone {
        println!(
            "| {} | {bytes} | {:.1} | - | - | - | - |  |",
            source.what,
            ours * 1e6
        );
        return f64::NAN;
    }
    println!(
        "| {} | {bytes} | {:.1} | {:.1} | {:.1} | {} | {} | {} |",
        source.what,
        ours * 1e6,
        theirs * 1e6,
        scans * 1e6,
        ratio(theirs, ours),
        ratio(theirs - scans, ours),
        verdict(source.goal, theirs / ours),
    );
    theirs / ours
}

fn verdict(goal: Goal, reached: f64) -> String {
    match goal.times() {
        None => String::new(),
        Some(times) if reached >= times => format!("{times}, met"),
        Some(times) => format!("{times}, missed"),
    }
}

/// The goals, and on which sources each is missed.
pub fn goals(sources: &[Source], reached: &[f64]) {
    for (goal, whose) in [
        (Goal::Ordinary, "mixes and examples"),
        (Goal::Worst, "worst cases"),
    ] {
        let Some(times) = goal.times() else { continue };
        let measured: Vec<_> = sources
            .iter()
            .zip(reached)
            .filter(|pair| pair.0.goal == goal)
            .collect();
        let missed: Vec<String> = measured
            .iter()
            .filter(|pair| *pair.1 < times)
            .map(|(source, reached)| format!("`{}` ({})", source.name, ratio(**reached, 1.0)))
            .collect();
        print!(
            "- {times} times as fast on {whose}: met on {} of {}.",
            measured.len() - missed.len(),
            measured.len()
        );
        match missed.as_slice() {
            [] => println!(),
            _ => println!(" Missed on {}.", missed.join(", ")),
        }
    }
}

/// The median times on each source.
fn median_times(sources: &[Source]) -> Vec<Times> {
    let mut rounds: Vec<Vec<Times>> = sources.iter().map(|_| Vec::new()).collect();
    for _ in 0..PASSES {
        for (source, rounds) in sources.iter().zip(&mut rounds) {
            rounds.extend(pass(source));
        }
    }
    rounds.iter().map(|rounds| median(rounds)).collect()
}

/// The rounds of one pass on a source.
fn pass(source: &Source) -> Vec<Times> {
    let text = source.text.as_str();
    let mut buffers = Buffers::new();
    let mut calls: [&mut dyn FnMut(); 3] = [
        &mut || {
            black_box(buffers.assemble(black_box(text)));
        },
        &mut || {
            let _ = black_box(reference::assemble(black_box(text)));
        },
        &mut || reference::comment_scans(black_box(text)),
    ];
    let calls = match source.goal {
        Goal::Alone => &mut calls[..1],
        _ => &mut calls[..],
    };
    let counts: Vec<u32> = calls.iter_mut().map(|call| enough_calls(call)).collect();
    let mut round = || {
        let mut times = [f64::NAN; 3];
        for ((time, call), count) in times.iter_mut().zip(calls.iter_mut()).zip(&counts) {
            *time = turn(call, *count).as_secs_f64() / f64::from(*count);
        }
        times
    };
    (0..ROUNDS).map(|_| round()).collect()
}

/// Each contender's median.
fn median(rounds: &[Times]) -> Times {
    [0, 1, 2].map(|who| {
        let mut times: Vec<f64> = rounds.iter().map(|round| round[who]).collect();
        times.sort_by(f64::total_cmp);
        times[times.len() / 2]
    })
}

/// How many calls make a turn. Trying it out also warms the caches up.
fn enough_calls(call: &mut dyn FnMut()) -> u32 {
    let mut count = 1;
    while turn(call, count) < TURN {
        count *= 2;
    }
    count
}

fn turn(call: &mut dyn FnMut(), count: u32) -> Duration {
    let start = thread_time();
    for _ in 0..count {
        call();
    }
    thread_time() - start
}

/// C's `struct timespec` on 64-bit Linux.
#[repr(C)]
struct Timespec {
    seconds: i64,
    nanoseconds: i64,
}

const CLOCK_THREAD_CPUTIME_ID: i32 = 3;

extern "C" {
    fn clock_gettime(clock: i32, time: *mut Timespec) -> i32;
}

/// How long this thread has been on the processor.
fn thread_time() -> Duration {
    let mut time = Timespec {
        seconds: 0,
        nanoseconds: 0,
    };
    // SAFETY: the pointer is of a live struct of C's shape.
    let failed = unsafe { clock_gettime(CLOCK_THREAD_CPUTIME_ID, &mut time) };
    assert!(failed == 0, "the thread's time cannot be read");
    Duration::new(time.seconds as u64, time.nanoseconds as u32)
}
