//! Interners that THREADS threads share: `parking_lot`'s or std's lock round a map and a list (`parking_lot`, `std`), and dashmap with a counter
//! (`dashmap`, which finds no name by its number).
//!
//! usage: shared_names SIDE FORM THREADS COUNT. `names_zipf` (65,535 names, each doubling of a name's rank as likely as the others) and `names_distinct`
//! put COUNT names in all. It prints the nanoseconds between the start of the threads and the end of the last one, and the sum of the numbers.
use dashmap::DashMap;
use hashbrown::HashMap;
use peers::{rank, timed, words_of, Draws, Fold};
use std::hash::{Hash, Hasher};
use std::sync::atomic::{AtomicU64, Ordering};

/// A name by value, as ours.
#[derive(Clone, Copy)]
struct Name {
    bytes: [u8; 23],
    len: u8,
}

impl Name {
    #[inline(always)]
    fn text(&self) -> &[u8] {
        &self.bytes[..self.len as usize]
    }
}

impl PartialEq for Name {
    #[inline(always)]
    fn eq(&self, other: &Name) -> bool {
        self.text() == other.text()
    }
}

impl Eq for Name {}

impl Hash for Name {
    #[inline(always)]
    fn hash<H: Hasher>(&self, state: &mut H) {
        state.write(self.text());
    }
}

/// The name of a number: its digits.
#[inline(always)]
fn name_of(mut number: u64) -> Name {
    let mut digits = [0; 23];
    let mut at = 23;
    loop {
        at -= 1;
        digits[at] = b'0' + (number % 10) as u8;
        number /= 10;
        if number == 0 {
            break;
        }
    }
    let len = 23 - at;
    let mut bytes = [0; 23];
    bytes[..len].copy_from_slice(&digits[at..]);
    Name { bytes, len: len as u8 }
}

trait Shared: Sync {
    fn put(&self, name: Name) -> u64;
}

#[derive(Default)]
struct Kept {
    numbers: HashMap<Name, u64, Fold>,
    names: Vec<Name>,
}

impl Kept {
    fn put(&mut self, name: Name) -> u64 {
        let names = &mut self.names;
        *self.numbers.entry(name).or_insert_with(|| {
            names.push(name);
            names.len() as u64 - 1
        })
    }
}

impl Shared for parking_lot::RwLock<Kept> {
    fn put(&self, name: Name) -> u64 {
        let known = self.read().numbers.get(&name).copied();
        known.unwrap_or_else(|| self.write().put(name))
    }
}

impl Shared for std::sync::RwLock<Kept> {
    fn put(&self, name: Name) -> u64 {
        let known = self.read().unwrap().numbers.get(&name).copied();
        known.unwrap_or_else(|| self.write().unwrap().put(name))
    }
}

#[derive(Default)]
struct Counted {
    numbers: DashMap<Name, u64, Fold>,
    count: AtomicU64,
}

impl Shared for Counted {
    fn put(&self, name: Name) -> u64 {
        if let Some(number) = self.numbers.get(&name) {
            return *number;
        }
        *self.numbers.entry(name).or_insert_with(|| self.count.fetch_add(1, Ordering::SeqCst))
    }
}

fn puts(names: &impl Shared, by_zipf: bool, thread: usize, count: usize) -> u64 {
    let mut draws = Draws(thread as u64 + 1);
    let mut sum = 0u64;
    for i in 0..count {
        let number = if by_zipf { rank(&mut draws) } else { (thread * count + i) as u64 };
        sum = sum.wrapping_add(names.put(name_of(number)));
    }
    sum
}

fn main() {
    let mut words = std::env::args().skip(1);
    let side = words.next().expect("a side");
    let (form, threads, count) = words_of(words);
    let each = count / threads;
    let by_zipf = match form.as_str() {
        "names_zipf" => true,
        "names_distinct" => false,
        _ => panic!("a form as at the head of this file"),
    };
    let (nanos, sum) = match side.as_str() {
        "parking_lot" => {
            let names = parking_lot::RwLock::<Kept>::default();
            timed(threads, |thread| puts(&names, by_zipf, thread, each))
        }
        "std" => {
            let names = std::sync::RwLock::<Kept>::default();
            timed(threads, |thread| puts(&names, by_zipf, thread, each))
        }
        "dashmap" => {
            let names = Counted::default();
            timed(threads, |thread| puts(&names, by_zipf, thread, each))
        }
        _ => panic!("a side as at the head of this file"),
    };
    println!("{nanos} {sum}");
}
