//! Locked maps under `THREADS` threads: upstream's (`upstream`), and what one takes instead: `dashmap`, `parking_lot`'s lock or std's (`std`) round
//! hashbrown's map, each with the same hash as ours.
//!
//! usage: sync_map SIDE FORM THREADS CALLS. `copy` (values are copied out) and `owner` (values are behind an `Arc`) make CALLS calls in all, a tenth of
//! them insertions, at 65,536 keys; `copy_few` is `copy` at 256 keys; `recorded` makes those of `copy`, and keeps each with its reply twice: in a
//! history under the lock, and in the thread's own list.
//! It prints the nanoseconds between the start of the threads and the end of the last one, and a sum of what was read.
use dashmap::DashMap;
use elsa::sync::FrozenMap;
use hashbrown::HashMap;
use peers::{timed, words_of, Draws, Fold};
use std::sync::Arc;

// Powers of two.
const KEYS: u64 = 65536;
const FEW_KEYS: u64 = 256;

/// A map that threads share, whose first value of a key stays.
trait Shared<V>: Sync {
    fn put(&self, key: u64, value: V) -> V;
    fn get(&self, key: u64) -> Option<V>;
}

impl Shared<u64> for FrozenMap<u64, u64> {
    fn put(&self, key: u64, value: u64) -> u64 {
        self.get_copy_or_insert(key, value)
    }

    fn get(&self, key: u64) -> Option<u64> {
        self.get_copy(&key)
    }
}

impl<V: Clone + Send + Sync> Shared<V> for DashMap<u64, V, Fold> {
    fn put(&self, key: u64, value: V) -> V {
        self.entry(key).or_insert(value).clone()
    }

    fn get(&self, key: u64) -> Option<V> {
        DashMap::get(self, &key).map(|value| value.clone())
    }
}

impl<V: Clone + Send + Sync> Shared<V> for parking_lot::RwLock<HashMap<u64, V, Fold>> {
    fn put(&self, key: u64, value: V) -> V {
        match Shared::get(self, key) {
            Some(kept) => kept,
            None => self.write().entry(key).or_insert(value).clone(),
        }
    }

    fn get(&self, key: u64) -> Option<V> {
        self.read().get(&key).cloned()
    }
}

impl<V: Clone + Send + Sync> Shared<V> for std::sync::RwLock<HashMap<u64, V, Fold>> {
    fn put(&self, key: u64, value: V) -> V {
        match Shared::get(self, key) {
            Some(kept) => kept,
            None => self.write().unwrap().entry(key).or_insert(value).clone(),
        }
    }

    fn get(&self, key: u64) -> Option<V> {
        self.read().unwrap().get(&key).cloned()
    }
}

fn copies(map: &impl Shared<u64>, keys: u64, thread: usize, calls: usize) -> u64 {
    let mut draws = Draws(thread as u64 + 1);
    let mut sum = 0u64;
    for call in 0..calls {
        let key = draws.next() & (keys - 1);
        if call % 10 == 0 {
            sum = sum.wrapping_add(map.put(key, key));
        } else if let Some(value) = map.get(key) {
            sum = sum.wrapping_add(value);
        }
    }
    sum
}

/// Upstream's map of owners gives borrows.
fn borrows(map: &FrozenMap<u64, Arc<u64>>, thread: usize, calls: usize) -> u64 {
    let mut draws = Draws(thread as u64 + 1);
    let mut sum = 0u64;
    for call in 0..calls {
        let key = draws.next() % KEYS;
        if call % 10 == 0 {
            sum = sum.wrapping_add(*map.insert(key, Arc::new(key)));
        } else if let Some(value) = map.get(&key) {
            sum = sum.wrapping_add(*value);
        }
    }
    sum
}

fn owners(map: &impl Shared<Arc<u64>>, thread: usize, calls: usize) -> u64 {
    let mut draws = Draws(thread as u64 + 1);
    let mut sum = 0u64;
    for call in 0..calls {
        let key = draws.next() % KEYS;
        if call % 10 == 0 {
            sum = sum.wrapping_add(*map.put(key, Arc::new(key)));
        } else if let Some(value) = map.get(key) {
            sum = sum.wrapping_add(*value);
        }
    }
    sum
}

#[derive(Clone, Copy)]
#[allow(dead_code)] // what is recorded is only kept
enum Command {
    Insert(u64, u64),
    Get(u64),
}

#[derive(Clone, Copy)]
#[allow(dead_code)]
enum Reply {
    Value(u64),
    Found(Option<u64>),
}

#[derive(Default)]
struct Recorded {
    map: HashMap<u64, u64, Fold>,
    entries: Vec<(u64, Command, Reply)>,
}

fn recorded(lock: &parking_lot::Mutex<Recorded>, thread: usize, calls: usize) -> u64 {
    let mut draws = Draws(thread as u64 + 1);
    let mut receipts = Vec::new();
    let mut sum = 0u64;
    for call in 0..calls {
        let key = draws.next() % KEYS;
        let command = if call % 10 == 0 { Command::Insert(key, key) } else { Command::Get(key) };
        let mut held = lock.lock();
        let reply = match command {
            Command::Insert(key, value) => Reply::Value(*held.map.entry(key).or_insert(value)),
            Command::Get(key) => Reply::Found(held.map.get(&key).copied()),
        };
        let place = held.entries.len();
        held.entries.push((thread as u64, command, reply));
        drop(held);
        receipts.push((place, command, reply));
        if let Reply::Value(value) | Reply::Found(Some(value)) = reply {
            sum = sum.wrapping_add(value);
        }
    }
    std::hint::black_box(receipts);
    sum
}

fn main() {
    let mut words = std::env::args().skip(1);
    let side = words.next().expect("a side");
    let (form, threads, calls) = words_of(words);
    let each = calls / threads;
    let (form, keys) = if form == "copy_few" { ("copy", FEW_KEYS) } else { (form.as_str(), KEYS) };
    let (nanos, sum) = match (form, side.as_str()) {
        ("copy", "upstream") => {
            let map = FrozenMap::<u64, u64>::new();
            timed(threads, |thread| copies(&map, keys, thread, each))
        }
        ("copy", "dashmap") => {
            let map = DashMap::<u64, u64, Fold>::default();
            timed(threads, |thread| copies(&map, keys, thread, each))
        }
        ("copy", "parking_lot") => {
            let map = parking_lot::RwLock::<HashMap<u64, u64, Fold>>::default();
            timed(threads, |thread| copies(&map, keys, thread, each))
        }
        ("copy", "std") => {
            let map = std::sync::RwLock::<HashMap<u64, u64, Fold>>::default();
            timed(threads, |thread| copies(&map, keys, thread, each))
        }
        ("owner", "upstream") => {
            let map = FrozenMap::new();
            timed(threads, |thread| borrows(&map, thread, each))
        }
        ("owner", "dashmap") => {
            let map = DashMap::<u64, Arc<u64>, Fold>::default();
            timed(threads, |thread| owners(&map, thread, each))
        }
        ("owner", "parking_lot") => {
            let map = parking_lot::RwLock::<HashMap<u64, Arc<u64>, Fold>>::default();
            timed(threads, |thread| owners(&map, thread, each))
        }
        ("owner", "std") => {
            let map = std::sync::RwLock::<HashMap<u64, Arc<u64>, Fold>>::default();
            timed(threads, |thread| owners(&map, thread, each))
        }
        ("recorded", "parking_lot") => {
            let lock = parking_lot::Mutex::<Recorded>::default();
            timed(threads, |thread| recorded(&lock, thread, each))
        }
        _ => panic!("a side and a form as at the head of this file"),
    };
    println!("{nanos} {sum}");
}
