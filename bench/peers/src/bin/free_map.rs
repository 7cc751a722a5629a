//! Maps that threads share, from which nothing is removed: dashmap, which is asked before an entry is made (`dashmap`) or not (`dashmap_entry`), and
//! std's and `parking_lot`'s lock round hashbrown's map (`std`, `parking_lot`), each with the same hash as ours.
//!
//! usage: free_map SIDE FORM THREADS COUNT. `free_insert_zipf` (65,535 keys, each doubling of a key's rank as likely as the others) and
//! `free_insert_distinct` make COUNT insertions in all, whose first value stays; `free_get_zipf`, `free_get_present` (of a million keys by chance) and
//! `free_get_absent` (of a million others) COUNT look-ups in all, with `_beside` for a thread that inserts as long as they last; `free_longest` the longest of COUNT
//! insertions by one thread. It prints the
//! nanoseconds between the start of the threads that are timed and the end of the last of them, and a sum.
use dashmap::DashMap;
use hashbrown::HashMap;
use peers::{key, rank, timed, words_of, Draws, Fold};
use std::sync::atomic::{AtomicBool, Ordering};
use std::time::Instant;

const RANKS: usize = 65_535;
const KEYS: usize = 1_000_000;
const BESIDE: usize = 100_000_000;

/// A map that threads share, whose first value of a key stays.
trait Shared: Sync {
    fn insert(&self, key: u64, value: u64) -> u64;
    fn get(&self, key: u64) -> Option<u64>;
}

impl Shared for DashMap<u64, u64, Fold> {
    fn insert(&self, key: u64, value: u64) -> u64 {
        match Shared::get(self, key) {
            Some(kept) => kept,
            None => *self.entry(key).or_insert(value),
        }
    }

    fn get(&self, key: u64) -> Option<u64> {
        DashMap::get(self, &key).map(|value| *value)
    }
}

/// dashmap where most keys are new.
#[derive(Default)]
struct Entered(DashMap<u64, u64, Fold>);

impl Shared for Entered {
    fn insert(&self, key: u64, value: u64) -> u64 {
        *self.0.entry(key).or_insert(value)
    }

    fn get(&self, key: u64) -> Option<u64> {
        Shared::get(&self.0, key)
    }
}

impl Shared for parking_lot::RwLock<HashMap<u64, u64, Fold>> {
    fn insert(&self, key: u64, value: u64) -> u64 {
        match Shared::get(self, key) {
            Some(kept) => kept,
            None => *self.write().entry(key).or_insert(value),
        }
    }

    fn get(&self, key: u64) -> Option<u64> {
        self.read().get(&key).copied()
    }
}

impl Shared for std::sync::RwLock<HashMap<u64, u64, Fold>> {
    fn insert(&self, key: u64, value: u64) -> u64 {
        match Shared::get(self, key) {
            Some(kept) => kept,
            None => *self.write().unwrap().entry(key).or_insert(value),
        }
    }

    fn get(&self, key: u64) -> Option<u64> {
        self.read().unwrap().get(&key).copied()
    }
}

#[derive(Clone, Copy)]
enum Sought {
    Zipf,
    Present,
    Absent,
}

impl Sought {
    #[inline(always)]
    fn next(self, draws: &mut Draws) -> usize {
        match self {
            Sought::Zipf => rank(draws) as usize,
            Sought::Present => draws.below(KEYS),
            Sought::Absent => draws.below(KEYS) + KEYS,
        }
    }
}

fn insert(map: &impl Shared, by_zipf: bool, thread: usize, each: usize) -> u64 {
    let mut draws = Draws(thread as u64 + 1);
    let mut sum = 0u64;
    for i in 0..each {
        let number = if by_zipf { rank(&mut draws) } else { (thread * each + i) as u64 };
        sum = sum.wrapping_add(map.insert(key(number as usize), number));
    }
    sum
}

fn insert_beside(map: &impl Shared, done: &AtomicBool) {
    for number in 2 * KEYS..BESIDE {
        if done.load(Ordering::SeqCst) {
            return;
        }
        map.insert(key(number), number as u64);
    }
}

fn look_up(map: &impl Shared, sought: Sought, thread: usize, each: usize) -> u64 {
    let mut draws = Draws(thread as u64 + 1);
    let mut sum = 0u64;
    for _ in 0..each {
        sum = sum.wrapping_add(map.get(key(sought.next(&mut draws))).unwrap_or(1));
    }
    sum
}

fn longest(map: &impl Shared, count: usize) -> (u128, u64) {
    let mut most = 0;
    let mut sum = 0u64;
    for number in 0..count {
        let start = Instant::now();
        sum = sum.wrapping_add(map.insert(key(number), number as u64));
        most = most.max(start.elapsed().as_nanos());
    }
    (most, sum)
}

fn run(map: &impl Shared, form: &str, threads: usize, count: usize) -> (u128, u64) {
    let each = count / threads;
    let (looked, beside) = match form.strip_suffix("_beside") {
        Some(looked) => (looked, true),
        None => (form, false),
    };
    let sought = match looked {
        "free_insert_zipf" => return timed(threads, |thread| insert(map, true, thread, each)),
        "free_insert_distinct" => return timed(threads, |thread| insert(map, false, thread, each)),
        "free_longest" => return longest(map, count),
        "free_get_zipf" => Sought::Zipf,
        "free_get_present" => Sought::Present,
        "free_get_absent" => Sought::Absent,
        _ => panic!("a form as at the head of this file"),
    };
    insert(map, false, 0, if matches!(sought, Sought::Zipf) { RANKS } else { KEYS });
    let done = AtomicBool::new(false);
    let done = &done;
    std::thread::scope(|scope| {
        if beside {
            scope.spawn(move || insert_beside(map, done));
        }
        let answer = timed(threads, |thread| look_up(map, sought, thread, each));
        done.store(true, Ordering::SeqCst);
        answer
    })
}

fn main() {
    let mut words = std::env::args().skip(1);
    let side = words.next().expect("a side");
    let (form, threads, count) = words_of(words);
    let (nanos, sum) = match side.as_str() {
        "dashmap" => run(&DashMap::<u64, u64, Fold>::default(), &form, threads, count),
        "dashmap_entry" => run(&Entered::default(), &form, threads, count),
        "parking_lot" => run(&parking_lot::RwLock::<HashMap<u64, u64, Fold>>::default(), &form, threads, count),
        "std" => run(&std::sync::RwLock::<HashMap<u64, u64, Fold>>::default(), &form, threads, count),
        _ => panic!("a side as at the head of this file"),
    };
    println!("{nanos} {sum}");
}
