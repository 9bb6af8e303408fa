//! Speed and memory of the Rust's readers and of ours, on the same logs, in one run.
//!
//! The Rust is given messages that are made already. Ours is given a file, so that its time has
//! the reading of the lines and the writing of the listing in it as well. Without our library
//! only the Rust is measured.

use compare::check::held::{ours, Replay};
use compare::generate::school::School;
use compare::kinds::{Message, Pair};
use compare::lines::file;
use compare::model::sizes;
use compare::rust;
use std::alloc::{GlobalAlloc, Layout, System};
use std::sync::atomic::{AtomicU64, Ordering::Relaxed};
use std::time::{Duration, Instant};

/// Counts what is allocated, and how much of it there is at most at once.
struct Counting;

static NUMBER: AtomicU64 = AtomicU64::new(0);
static NOW: AtomicU64 = AtomicU64::new(0);
static MOST: AtomicU64 = AtomicU64::new(0);

unsafe impl GlobalAlloc for Counting {
    unsafe fn alloc(&self, layout: Layout) -> *mut u8 {
        NUMBER.fetch_add(1, Relaxed);
        let now = NOW.fetch_add(layout.size() as u64, Relaxed) + layout.size() as u64;
        MOST.fetch_max(now, Relaxed);
        unsafe { System.alloc(layout) }
    }
    unsafe fn dealloc(&self, at: *mut u8, layout: Layout) {
        NOW.fetch_sub(layout.size() as u64, Relaxed);
        unsafe { System.dealloc(at, layout) }
    }
}

#[global_allocator]
static COUNTING: Counting = Counting;

/// What one way of reading a log costs.
struct Cost {
    /// Nanoseconds for one reading of the log.
    time: f64,
    allocations: u64,
    /// The most bytes allocated at once, over those before.
    bytes: u64,
}

/// Reads a log again and again for a while, and takes the fastest tenth's slowest: other
/// processes run beside this one. What `make` makes is not in the time.
fn cost<X>(make: impl Fn() -> X, mut read: impl FnMut(X)) -> Cost {
    let (mut times, begun) = (Vec::new(), Instant::now());
    let (mut allocations, mut bytes) = (0, 0);
    while times.len() < 20 || begun.elapsed() < Duration::from_millis(300) {
        let input = make();
        let (number, now) = (NUMBER.load(Relaxed), NOW.load(Relaxed));
        MOST.store(now, Relaxed);
        let from = Instant::now();
        read(input);
        times.push(from.elapsed().as_nanos() as f64);
        allocations = NUMBER.load(Relaxed) - number;
        bytes = MOST.load(Relaxed) - now;
    }
    times.sort_by(f64::total_cmp);
    Cost { time: times[times.len() / 10], allocations, bytes }
}

fn held(log: &[Message<Pair>]) -> Cost {
    cost(
        || log.to_vec(),
        |log| {
            let mut reader = rust::held::Held::fresh();
            for message in log {
                std::hint::black_box(reader.feed(message));
            }
        },
    )
}

/// Settled and heeded after each message.
fn prompt(log: &[Message<Pair>]) -> Cost {
    cost(
        || log.to_vec(),
        |log| {
            let mut reader = rust::prompt::Prompt::fresh();
            for message in &log {
                match message {
                    Message::Updates(changes) => drop(std::hint::black_box(reader.sift(changes))),
                    Message::Progress(statement) => drop(reader.note(statement)),
                }
                reader.settle_and_heed();
            }
        },
    )
}

fn replayed(ours: &mut dyn Replay, log: &[Message<Pair>]) -> Cost {
    let (bytes, mut out) = (file(log), vec![0; sizes::FILE]);
    assert!(ours.replay(&bytes, &mut out) > 0, "a log of {} bytes that is listed", bytes.len());
    let mut read = || ours.replay(&bytes, &mut out);
    cost(|| (), |()| assert!(std::hint::black_box(read()) > 0))
}

fn print(who: &str, school: &School, messages: usize, cost: &Cost) {
    let (messages, changes) = (messages as f64, (school.changes * school.rounds) as f64);
    let per_second = |number: f64| number / cost.time * 1e3;
    println!(
        "    {who:<22} {:>8.3} M messages/s {:>8.3} M changes/s {:>8} allocations {:>9} bytes",
        per_second(messages),
        per_second(changes),
        cost.allocations,
        cost.bytes
    );
}

fn compare(ours: &mut dyn Replay, held_at_once: u64, long: bool) {
    let school = School::holding(held_at_once, long);
    let log = school.log();
    println!(
        "{} changes held, {} to a message, {} counts to a statement, {} messages",
        school.changes * school.lag,
        school.changes,
        school.times,
        log.len()
    );
    let (held, prompt) = (held(&log), prompt(&log));
    print("Rust, held", &school, log.len(), &held);
    print("Rust, prompt", &school, log.len(), &prompt);
    if cfg!(feature = "library") {
        let replayed = replayed(ours, &log);
        print("ours, held by replay", &school, log.len(), &replayed);
        println!("    time of the Rust's held reader over that of ours: {:.2}", held.time / replayed.time);
    }
}

fn main() {
    let (name, mut ours) = ours();
    println!("held reader of ours: {name}");
    for long in [false, true] {
        for held_at_once in [8, 32, 128, 256, 512, 1_024, 1_984] {
            compare(&mut *ours, held_at_once, long);
        }
    }
}
