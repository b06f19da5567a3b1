//! A vector that threads update while others read it, and maps in which threads look devices up and one changes them.

use crate::{slowest, tell, time_rounds, Size};
use arc_swap::ArcSwap;
use std::collections::{BTreeMap, HashMap};
use std::hint::black_box;
use std::sync::atomic::AtomicBool;
use std::sync::atomic::Ordering::SeqCst;
use std::sync::{Arc, RwLock};
use std::thread;
use std::time::{Duration, Instant};

/// How many rows the vector has, and how many threads read it while others update it.
const ROWS: u64 = 100;
const READERS: usize = 4;

/// By how much the next key is greater, as in the program `valuebench`.
const STRIDE: u64 = 7;

/// An update and a change are made so many times less often than a value is read, as there: a change for each of its keys.
const LESS_OFTEN: u64 = 1024;
const LESS_OFTEN_FOR_EACH: u64 = 4;

/// A device that threads share.
type Shared = Arc<u64>;

/// Measures an update of the vector while others read it.
pub fn time_updates(size: Size) {
    let rows = ArcSwap::from_pointee(vec![0u64; ROWS as usize]);
    let update = |round: u64| {
        rows.rcu(|rows| {
            let mut rows = Vec::clone(rows);
            rows[(round % ROWS) as usize] += 1;
            rows
        });
        0
    };
    let is_over = AtomicBool::new(false);
    let read_on = || {
        while !is_over.load(SeqCst) {
            black_box(rows.load().len());
        }
    };
    for threads in [1, 2, 4].into_iter().filter(|threads| *threads <= size.most) {
        is_over.store(false, SeqCst);
        let samples = thread::scope(|scope| {
            for _ in 0..READERS {
                scope.spawn(read_on);
            }
            let samples = (0..size.repetitions)
                .map(|_| slowest(threads, size.rounds / LESS_OFTEN + 1, &update))
                .collect();
            is_over.store(true, SeqCst);
            samples
        });
        tell("arc-swap-update", threads, samples);
    }
}

/// Measures lookups and changes of both maps.
pub fn time_maps<const KEYS: u64>(size: Size) {
    let devices = || (0..KEYS).map(|key| (key, Arc::new(key)));
    let swapped = ArcSwap::from_pointee(devices().collect::<BTreeMap<u64, Shared>>());
    time_rounds(&format!("arc-swap-find-{KEYS}"), size, |round| {
        let key = round * STRIDE % KEYS;
        swapped.load().get(&key).map_or(0, |device| **device)
    });
    let remove = |key: u64| whole(take_out(&swapped, key));
    let insert = |key: u64, device: u64| put_in(&swapped, key, Arc::new(device));
    time_changes::<KEYS>("arc-swap", size, remove, insert);

    let locked = RwLock::new((0..KEYS).map(|key| (key, key)).collect::<HashMap<u64, u64>>());
    time_rounds(&format!("std-rwlock-find-{KEYS}"), size, |round| {
        let map = locked.read().expect("no writer of this lock panics");
        map.get(&(round * STRIDE % KEYS)).copied().unwrap_or(0)
    });
    let writing = || locked.write().expect("nobody panics with this lock");
    let remove = |key: u64| writing().remove(&key).expect("each device is there");
    let insert = |key: u64, device: u64| {
        writing().insert(key, device);
    };
    time_changes::<KEYS>("std-rwlock", size, remove, insert);
}

/// Puts a copy of the map without this device.
fn take_out(swapped: &ArcSwap<BTreeMap<u64, Shared>>, key: u64) -> Shared {
    let device = Arc::clone(&swapped.load()[&key]);
    swapped.rcu(|map| {
        let mut map = BTreeMap::clone(map);
        map.remove(&key);
        map
    });
    device
}

/// Puts a copy of the map with this device.
fn put_in(swapped: &ArcSwap<BTreeMap<u64, Shared>>, key: u64, device: Shared) {
    swapped.rcu(|map| {
        let mut map = BTreeMap::clone(map);
        map.insert(key, Arc::clone(&device));
        map
    });
}

/// The device itself, once no reader has it.
fn whole(mut device: Shared) -> u64 {
    loop {
        match Arc::try_unwrap(device) {
            Ok(device) => return device,
            Err(shared) => device = shared,
        }
        thread::yield_now();
    }
}

/// Measures how long it takes to remove a device, until it is back, and to insert it again. Nobody reads.
fn time_changes<const KEYS: u64>(
    peer: &str,
    size: Size,
    remove: impl Fn(u64) -> u64,
    insert: impl Fn(u64, u64),
) {
    let rounds = size.rounds / (LESS_OFTEN_FOR_EACH * KEYS) + 1;
    let (mut removals, mut insertions) = (Vec::new(), Vec::new());
    for _ in 0..size.repetitions {
        let (mut removing, mut inserting) = (Duration::ZERO, Duration::ZERO);
        for round in 0..rounds {
            let key = round * STRIDE % KEYS;
            let start = Instant::now();
            let device = remove(key);
            removing += start.elapsed();
            let start = Instant::now();
            insert(key, device);
            inserting += start.elapsed();
        }
        removals.push(removing.as_nanos() as f64 / rounds as f64);
        insertions.push(inserting.as_nanos() as f64 / rounds as f64);
    }
    tell(&format!("{peer}-remove-{KEYS}"), 1, removals);
    tell(&format!("{peer}-insert-{KEYS}"), 1, insertions);
}
