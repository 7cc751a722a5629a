//! Interners that THREADS threads share, of the first COUNT lines of standard input, `put ` before each of them left out: two dashmaps, from texts to
//! numbers and from numbers to texts, as lasso's `ThreadedRodeo` is made (`dashmaps`), a mutex around hashbrown's map and a list (`mutex`), and
//! `SharedInterner` of bindings/rust (`bindings`, if cargo has that feature). All have a hash with a secret; the first two have ours.
//!
//! usage: shared_lines SIDE THREADS COUNT. Each thread puts its part of the lines. It prints the nanoseconds between the start of the threads and the
//! end of the last one, and the sum of the numbers.
use bumpalo::Bump;
use dashmap::DashMap;
use hashbrown::HashMap;
use peers::{timed, words_of, Seeded};
use std::io::BufRead;
use std::sync::atomic::{AtomicU64, Ordering};

trait Shared: Sync {
    fn put(&self, text: &str) -> u64;
}

#[derive(Default)]
struct TwoMaps {
    numbers: DashMap<&'static str, u64, Seeded>,
    texts: DashMap<u64, &'static str, peers::Fold>,
    count: AtomicU64,
}

thread_local! {
    /// Where a thread keeps new texts, until the process ends.
    static ARENA: &'static Bump = Box::leak(Box::new(Bump::new()));
}

impl Shared for TwoMaps {
    fn put(&self, text: &str) -> u64 {
        if let Some(number) = self.numbers.get(text) {
            return *number;
        }
        let kept: &'static str = ARENA.with(|arena| arena.alloc_str(text));
        *self.numbers.entry(kept).or_insert_with(|| {
            let number = self.count.fetch_add(1, Ordering::Relaxed);
            self.texts.insert(number, kept);
            number
        })
    }
}

#[derive(Default)]
struct Kept {
    numbers: HashMap<&'static str, u64, Seeded>,
    texts: Vec<&'static str>,
}

impl Shared for parking_lot::Mutex<Kept> {
    fn put(&self, text: &str) -> u64 {
        let mut kept = self.lock();
        if let Some(number) = kept.numbers.get(text) {
            return *number;
        }
        let number = kept.texts.len() as u64;
        let copy: &'static str = ARENA.with(|arena| arena.alloc_str(text));
        kept.numbers.insert(copy, number);
        kept.texts.push(copy);
        number
    }
}

#[cfg(feature = "bindings")]
impl Shared for elsa_proved::SharedInterner {
    fn put(&self, text: &str) -> u64 {
        self.get_or_intern(text).index() as u64
    }
}

fn puts(names: impl Shared, texts: &[String], threads: usize) -> (u128, u64) {
    let each = texts.len() / threads;
    timed(threads, |thread| {
        let part = &texts[thread * each..(thread + 1) * each];
        part.iter().fold(0, |sum: u64, text| sum.wrapping_add(names.put(text)))
    })
}

fn main() {
    let (side, threads, count) = words_of(std::env::args().skip(1));
    let lines = std::io::stdin().lock().lines().take(count).map(|line| line.expect("a line"));
    let texts: Vec<String> = lines.map(|line| line.strip_prefix("put ").unwrap_or(&line).to_owned()).collect();
    let (nanos, sum) = match side.as_str() {
        "dashmaps" => puts(TwoMaps::default(), &texts, threads),
        "mutex" => puts(parking_lot::Mutex::<Kept>::default(), &texts, threads),
        #[cfg(feature = "bindings")]
        "bindings" => puts(elsa_proved::SharedInterner::new(), &texts, threads),
        _ => panic!("a side as at the head of this file"),
    };
    println!("{nanos} {sum}");
}
