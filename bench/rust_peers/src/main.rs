//! Measures what a Rust programmer would take instead: arc-swap, crossbeam-epoch, and the locks of std and parking_lot; for a
//! value that is updated and for a registry, maps in arc-swap and in std's lock ([`maps`]).
//!
//! ```text
//! rust_peers ROUNDS REPETITIONS MOST
//! ```
//!
//! prints a line for each thing and each number of threads: its name, the threads, and the median, the least and the most of
//! the repetitions in nanoseconds. What readers do is measured in 1, 2, 4 threads up to MOST. Each thread reads the clock
//! itself, and the slowest one counts. A thing that would take longer than [`ENOUGH`] is done less often.

mod maps;

use arc_swap::ArcSwap;
use crossbeam_epoch::{self as epoch, Atomic, Owned};
use std::hint::black_box;
use std::process::ExitCode;
use std::sync::atomic::Ordering::SeqCst;
use std::sync::{Arc, Barrier, RwLock};
use std::thread;
use std::time::Instant;

/// A version: sixteen words.
type Words = [u64; 16];

/// A table: fifteen keys, each with a plug.
type Rows = [(u32, u32); 15];

/// The key that is looked up, as in the other programs: the one in the middle.
const KEY: u32 = 7;

/// A replacement is made so many times less often than a value is read, since it takes longer.
const LESS_OFTEN: u64 = 8;

/// How long a measurement takes where it may be cut short, in nanoseconds.
const ENOUGH: f64 = 4e8;

/// The part of the rounds by which it is found how many take so long.
const PROBE: u64 = 64;

/// How much is measured.
#[derive(Clone, Copy)]
struct Size {
    rounds: u64,
    repetitions: usize,
    most: usize,
}

/// Reads the words as a reader would that needs all of them.
fn sum(words: &Words) -> u64 {
    words.iter().fold(0, |sum, word| sum ^ black_box(*word))
}

/// The plug of a key.
fn plug_of(rows: &Rows, key: u32) -> u32 {
    rows.iter()
        .find(|row| row.0 == key)
        .map_or(0, |row| row.1)
}

/// What one round took in the slowest of so many threads, in nanoseconds. Each round is told its number.
fn slowest(threads: usize, rounds: u64, read: &(impl Fn(u64) -> u64 + Sync)) -> f64 {
    let start = Barrier::new(threads);
    let one = || {
        start.wait();
        let began = Instant::now();
        for round in 0..rounds {
            black_box(read(round));
        }
        began.elapsed().as_nanos() as f64 / rounds as f64
    };
    thread::scope(|scope| {
        let started: Vec<_> = (0..threads).map(|_| scope.spawn(one)).collect();
        started
            .into_iter()
            .map(|thread| thread.join().expect("a thread of this program ended early"))
            .fold(0.0, f64::max)
    })
}

/// So many rounds, or as many as take long enough.
fn rounds_of(threads: usize, most: u64, read: &(impl Fn(u64) -> u64 + Sync)) -> u64 {
    let few = most / PROBE + 1;
    let enough = ENOUGH / slowest(threads, few, read);
    (enough as u64).clamp(few, most.max(few))
}

/// Prints the line of one thing.
fn tell(name: &str, threads: usize, mut samples: Vec<f64>) {
    samples.sort_by(f64::total_cmp);
    let median = samples[samples.len() / 2];
    let (least, most) = (samples[0], samples[samples.len() - 1]);
    println!("{name} {threads} median {median:.2} least {least:.2} most {most:.2}");
}

/// Measures what threads do in each round, 1, 2 and 4 of them at once.
fn time_rounds(name: &str, size: Size, read: impl Fn(u64) -> u64 + Sync) {
    for threads in [1, 2, 4].into_iter().filter(|threads| *threads <= size.most) {
        let rounds = rounds_of(threads, size.rounds, &read);
        let samples = (0..size.repetitions)
            .map(|_| slowest(threads, rounds, &read))
            .collect();
        tell(name, threads, samples);
    }
}

/// Measures what readers do, in several threads.
fn time_readers(name: &str, size: Size, read: impl Fn() -> u64 + Sync) {
    time_rounds(name, size, |_| read());
}

/// Measures what a writer does, in one thread, with nobody reading.
fn time_writer(name: &str, size: Size, write: impl Fn() -> u64 + Sync) {
    let write = |_: u64| write();
    let rounds = rounds_of(1, size.rounds / LESS_OFTEN + 1, &write);
    let samples = (0..size.repetitions)
        .map(|_| slowest(1, rounds, &write))
        .collect();
    tell(name, 1, samples);
}

/// Sixteen words of a version, read under what protects them.
fn time_words(size: Size) {
    let words: Words = [7; 16];
    let swapped = ArcSwap::from_pointee(words);
    time_readers("arc-swap-find-16", size, || sum(&swapped.load()));
    let pinned = Atomic::new(words);
    time_readers("epoch-find-16", size, || {
        let guard = epoch::pin();
        // SAFETY: the pointer is never null, and nothing that it points to is freed while the guard lives.
        sum(unsafe { pinned.load(SeqCst, &guard).deref() })
    });
    let locked = RwLock::new(words);
    time_readers("std-rwlock-find-16", size, || {
        sum(&locked.read().expect("no writer of this lock panics"))
    });
    let parked = parking_lot::RwLock::new(words);
    time_readers("parking-lot-find-16", size, || sum(&parked.read()));
}

/// One word through a pointer, which what protects it keeps from being freed.
fn time_boxes(size: Size) {
    let first = |words: &Words| black_box(words[0]);
    let swapped = ArcSwap::from_pointee([7; 16]);
    time_readers("arc-swap-box", size, || first(&swapped.load()));
    let pinned = Atomic::new([7; 16]);
    time_readers("epoch-box", size, || {
        let guard = epoch::pin();
        // SAFETY: the pointer is never null, and nothing that it points to is freed while the guard lives.
        first(unsafe { pinned.load(SeqCst, &guard).deref() })
    });
    let locked = RwLock::new(Arc::new([7; 16]));
    time_readers("std-rwlock-arc", size, || {
        let words = Arc::clone(&locked.read().expect("no writer of this lock panics"));
        first(&words)
    });
    let parked = parking_lot::RwLock::new(Arc::new([7; 16]));
    time_readers("parking-lot-arc", size, || {
        let words = Arc::clone(&parked.read());
        first(&words)
    });
}

/// A key of fifteen, looked up under what protects them.
fn time_keys(size: Size) {
    let rows: Rows = std::array::from_fn(|at| (at as u32, 3 * at as u32));
    let look = |rows: &Rows| u64::from(plug_of(rows, black_box(KEY)));
    let swapped = ArcSwap::from_pointee(rows);
    time_readers("arc-swap-lookup", size, || look(&swapped.load()));
    let pinned = Atomic::new(rows);
    time_readers("epoch-lookup", size, || {
        let guard = epoch::pin();
        // SAFETY: as above.
        look(unsafe { pinned.load(SeqCst, &guard).deref() })
    });
    let locked = RwLock::new(rows);
    time_readers("std-rwlock-lookup", size, || {
        look(&locked.read().expect("no writer of this lock panics"))
    });
    let parked = parking_lot::RwLock::new(rows);
    time_readers("parking-lot-lookup", size, || look(&parked.read()));
}

/// A version that is replaced: the old one is freed, or handed on to be freed.
fn time_puts(size: Size) {
    let swapped = ArcSwap::from_pointee([7; 16]);
    time_writer("arc-swap-put", size, || {
        swapped.store(Arc::new([7u64; 16]));
        0
    });
    let pinned = Atomic::new([7u64; 16]);
    time_writer("epoch-put", size, || {
        let guard = epoch::pin();
        let old = pinned.swap(Owned::new([7u64; 16]), SeqCst, &guard);
        // SAFETY: nobody can find the old value any more, and who has found it holds a guard.
        unsafe { guard.defer_destroy(old) };
        0
    });
}

/// What the words of the command line ask for.
fn size_of(words: &[String]) -> Option<Size> {
    let [rounds, repetitions, most] = words else {
        return None;
    };
    Some(Size {
        rounds: rounds.parse().ok().filter(|rounds| *rounds > 0)?,
        repetitions: repetitions.parse().ok().filter(|times| *times > 0)?,
        most: most.parse().ok()?,
    })
}

fn main() -> ExitCode {
    let words: Vec<String> = std::env::args().skip(1).collect();
    let Some(size) = size_of(&words) else {
        eprintln!("usage: rust_peers ROUNDS REPETITIONS MOST");
        return ExitCode::from(2);
    };
    time_words(size);
    time_boxes(size);
    time_keys(size);
    time_puts(size);
    maps::time_updates(size);
    maps::time_maps::<15>(size);
    maps::time_maps::<1000>(size);
    ExitCode::SUCCESS
}
