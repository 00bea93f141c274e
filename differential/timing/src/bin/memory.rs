//! Memory of a call: the reference's peak heap on each source, and ours, which
//! is the same for every source.
//!
//! This is a program of its own, since every allocation is counted here, which
//! would slow the timed calls.

use std::alloc::{GlobalAlloc, Layout, System};
use std::hint::black_box;
use std::process::ExitCode;
use std::sync::atomic::{AtomicUsize, Ordering::Relaxed};
use std::{env, io, thread};

use timing::figures::{grouped, ratio};
use timing::ours::Buffers;
use timing::reference;
use timing::sources::{sources, Goal, Source};

/// The system's allocator, with how often it was asked, the bytes that are in
/// use and the most that ever were.
struct Counting;

static ASKED: AtomicUsize = AtomicUsize::new(0);
static IN_USE: AtomicUsize = AtomicUsize::new(0);
static PEAK: AtomicUsize = AtomicUsize::new(0);

fn taken(bytes: usize) {
    ASKED.fetch_add(1, Relaxed);
    let now = IN_USE.fetch_add(bytes, Relaxed) + bytes;
    PEAK.fetch_max(now, Relaxed);
}

fn given_back(bytes: usize) {
    IN_USE.fetch_sub(bytes, Relaxed);
}

// SAFETY: every call is passed on to the system's allocator.
unsafe impl GlobalAlloc for Counting {
    unsafe fn alloc(&self, layout: Layout) -> *mut u8 {
        taken(layout.size());
        System.alloc(layout)
    }

    unsafe fn dealloc(&self, block: *mut u8, layout: Layout) {
        given_back(layout.size());
        System.dealloc(block, layout)
    }

    unsafe fn realloc(&self, block: *mut u8, layout: Layout, size: usize) -> *mut u8 {
        given_back(layout.size());
        taken(size);
        System.realloc(block, layout, size)
    }
}

#[global_allocator]
static ALLOCATOR: Counting = Counting;

fn main() -> ExitCode {
    let arguments: Vec<String> = env::args().skip(1).collect();
    let chosen: Vec<&str> = arguments.iter().map(String::as_str).collect();
    match tables(&chosen) {
        Ok(()) => ExitCode::SUCCESS,
        Err(error) => {
            eprintln!("{error}");
            ExitCode::FAILURE
        }
    }
}

fn tables(chosen: &[&str]) -> io::Result<()> {
    let sources = sources(chosen)?;
    let ours = our_table(&sources);
    println!();
    println!(
        "| source | our allocations | reference's allocations | its peak heap | peak heap / ours |"
    );
    println!("|---|---|---|---|---|");
    for source in &sources {
        let text = source.text.as_str();
        let mut buffers = Buffers::new();
        let (our_count, _) = heap(|| {
            black_box(buffers.assemble(black_box(text)));
        });
        let our_count = grouped(our_count as u64);
        if source.goal == Goal::Alone {
            println!("| {} | {our_count} | - | - | - |", source.what);
            continue;
        }
        let (their_count, peak) = heap(|| {
            let _ = black_box(reference::assemble(black_box(text)));
        });
        println!(
            "| {} | {our_count} | {} | {} | {} |",
            source.what,
            grouped(their_count as u64),
            grouped(peak as u64),
            ratio(peak as f64, ours as f64)
        );
    }
    Ok(())
}

/// What ours takes, part by part, and together.
fn our_table(sources: &[Source]) -> usize {
    let mut parts = Buffers::new().sizes();
    parts.push(("the call's stack", our_stack(sources)));
    let total = parts.iter().map(|part| part.1).sum();
    parts.push(("together", total));
    println!("| ours | bytes |");
    println!("|---|---|");
    for (what, bytes) in parts {
        println!("| {what} | {} |", grouped(bytes as u64));
    }
    total
}

/// How often a call asks for heap, and the most that it has in use at one time.
fn heap(call: impl FnOnce()) -> (usize, usize) {
    let (asked, in_use) = (ASKED.load(Relaxed), IN_USE.load(Relaxed));
    PEAK.store(in_use, Relaxed);
    call();
    (ASKED.load(Relaxed) - asked, PEAK.load(Relaxed) - in_use)
}

// ---- the stack

/// The most stack that our call takes on any of the sources.
fn our_stack(sources: &[Source]) -> usize {
    let depths = sources.iter().map(|source| {
        let text = source.text.clone();
        thread::Builder::new()
            .stack_size(2 * LOOKED_AT)
            .spawn(move || {
                let mut buffers = Buffers::new();
                stack_depth(&mut || {
                    black_box(buffers.assemble(&text));
                })
            })
            .and_then(|thread| thread.join().map_err(|_| io::Error::other("it panicked")))
            .expect("the call comes to its end in a thread of its own")
    });
    depths.max().unwrap_or(0)
}

/// How far down the stack is looked at.
const LOOKED_AT: usize = 1024 * 1024;

/// Left free below the function that looks: its own frame.
const OWN_FRAME: usize = 512;

const MARK: u8 = 0xA5;

/// How far down the stack a call goes: the stack below is marked first, and
/// looked at afterwards. About right: the frames of the functions that mark
/// and look count in place of those between here and the call.
fn stack_depth(call: &mut dyn FnMut()) -> usize {
    mark_stack();
    call();
    marks_lost()
}

/// The addresses below the caller's frame, from the lowest.
#[inline(always)]
fn below(here: &u8) -> std::ops::Range<usize> {
    let top = here as *const u8 as usize;
    top - LOOKED_AT..top - OWN_FRAME
}

#[inline(never)]
fn mark_stack() {
    let here = black_box(0u8);
    for address in below(&here) {
        // SAFETY: this thread's stack goes further down, and nothing below
        // this frame is in use.
        unsafe { (address as *mut u8).write_volatile(MARK) };
    }
}

#[inline(never)]
fn marks_lost() -> usize {
    let here = black_box(0u8);
    // SAFETY: as above; the bytes were written there.
    let lost = below(&here).find(|&a| unsafe { (a as *const u8).read_volatile() } != MARK);
    lost.map_or(0, |address| &here as *const u8 as usize - address)
}
