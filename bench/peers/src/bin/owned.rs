//! Values that own memory, which threads read by reference: upstream's vector and map (`upstream`); `slots`, buckets of slots that say one by one whether
//! they are written, as the crate boxcar has them, which Debian doesn't package; and dashmap with its guards (`dashmap`), with the same hash as ours.
//!
//! usage: owned SIDE FORM THREADS COUNT. COUNT reads in all: `owned_vec_arc` and `owned_vec_text` at random places of a vector of `Arc<u64>` or `String`
//! (`slots` and `upstream`), `owned_map_arc` and `owned_map_text` of 65,535 keys by Zipf's law (`dashmap` and `upstream`). It prints the nanoseconds
//! between the start of the threads and the end of the last of them, and a sum.
use dashmap::DashMap;
use peers::{key, rank, timed, words_of, Draws, Fold};
use std::cell::UnsafeCell;
use std::mem::MaybeUninit;
use std::sync::atomic::{AtomicBool, AtomicPtr, AtomicUsize, Ordering};
use std::sync::Arc;

const STOCK: u64 = 1 << 17;
const RANKS: usize = 65_535;

/// A value that owns memory.
trait Owned: Send + Sync {
    fn new(number: u64) -> Self;
    fn number(&self) -> u64;
}

impl Owned for Arc<u64> {
    fn new(number: u64) -> Arc<u64> {
        Arc::new(number)
    }

    #[inline(always)]
    fn number(&self) -> u64 {
        **self
    }
}

/// What is read of a text.
#[inline(always)]
fn of_text(text: &str) -> u64 {
    u64::from(text.as_bytes().last().copied().unwrap_or(0)).wrapping_add(text.len() as u64)
}

impl Owned for String {
    fn new(number: u64) -> String {
        number.to_string()
    }

    #[inline(always)]
    fn number(&self) -> u64 {
        of_text(self)
    }
}

struct Slot<T> {
    item: UnsafeCell<MaybeUninit<T>>,
    written: AtomicBool,
}

const BUCKETS: usize = 48;
const FIRST: usize = 32;

/// Buckets, each twice as long as the one before.
struct Slots<T> {
    next: AtomicUsize,
    buckets: [AtomicPtr<Slot<T>>; BUCKETS],
}

// Safe: a slot is written once, by the thread that took its place, and read only where it says that it is written.
unsafe impl<T: Send + Sync> Sync for Slots<T> {}

impl<T> Slots<T> {
    fn new() -> Slots<T> {
        Slots { next: AtomicUsize::new(0), buckets: [const { AtomicPtr::new(std::ptr::null_mut()) }; BUCKETS] }
    }

    /// The bucket of a place, its length, and where in it the place is.
    #[inline(always)]
    fn locate(place: usize) -> (usize, usize, usize) {
        let bucket = ((place + FIRST).ilog2() - FIRST.ilog2()) as usize;
        let length = FIRST << bucket;
        (bucket, length, place + FIRST - length)
    }

    #[cold]
    #[inline(never)]
    fn make(&self, bucket: usize, length: usize) -> *mut Slot<T> {
        let layout = std::alloc::Layout::array::<Slot<T>>(length).unwrap();
        // Safe: the layout has bytes, and a slot of zeros is one that isn't written. The bucket of whoever comes second is freed.
        let made = unsafe { std::alloc::alloc_zeroed(layout) }.cast::<Slot<T>>();
        assert!(!made.is_null(), "no memory");
        match self.buckets[bucket].compare_exchange(std::ptr::null_mut(), made, Ordering::AcqRel, Ordering::Acquire) {
            Ok(_) => made,
            Err(there) => {
                unsafe { std::alloc::dealloc(made.cast(), layout) };
                there
            }
        }
    }

    fn push(&self, item: T) -> usize {
        let place = self.next.fetch_add(1, Ordering::Relaxed);
        let (bucket, length, at) = Slots::<T>::locate(place);
        let mut slots = self.buckets[bucket].load(Ordering::Acquire);
        if slots.is_null() {
            slots = self.make(bucket, length);
        }
        // Safe: the place is this thread's alone, and in the bucket.
        unsafe {
            let slot = &*slots.add(at);
            (*slot.item.get()).write(item);
            slot.written.store(true, Ordering::Release);
        }
        place
    }

    #[inline(always)]
    fn get(&self, place: usize) -> Option<&T> {
        let (bucket, _, at) = Slots::<T>::locate(place);
        let slots = self.buckets.get(bucket)?.load(Ordering::Acquire);
        if slots.is_null() {
            return None;
        }
        // Safe: the place is in the bucket, and read only where it is written.
        unsafe {
            let slot = &*slots.add(at);
            slot.written.load(Ordering::Acquire).then(|| (*slot.item.get()).assume_init_ref())
        }
    }
}

impl<T> Drop for Slots<T> {
    fn drop(&mut self) {
        for (bucket, slots) in self.buckets.iter_mut().enumerate() {
            let slots = *slots.get_mut();
            if slots.is_null() {
                continue;
            }
            for at in 0..FIRST << bucket {
                // Safe: nobody else has the slots, and an item is dropped only where it is written.
                unsafe {
                    let slot = &mut *slots.add(at);
                    if *slot.written.get_mut() {
                        slot.item.get_mut().assume_init_drop();
                    }
                }
            }
            let layout = std::alloc::Layout::array::<Slot<T>>(FIRST << bucket).unwrap();
            // Safe: it was allocated with this layout.
            unsafe { std::alloc::dealloc(slots.cast(), layout) };
        }
    }
}

/// Reads at random places, by what returns the number of a place.
fn read_vector(threads: usize, each: usize, number: impl Fn(usize) -> Option<u64> + Sync) -> (u128, u64) {
    timed(threads, |thread| {
        let mut draws = Draws(thread as u64 + 1);
        let mut sum = 0u64;
        for _ in 0..each {
            if let Some(read) = number((draws.next() & (STOCK - 1)) as usize) {
                sum = sum.wrapping_add(read);
            }
        }
        sum
    })
}

/// Looks up keys by Zipf's law, by what returns the number of a key's value.
fn read_map(threads: usize, each: usize, number: impl Fn(u64) -> Option<u64> + Sync) -> (u128, u64) {
    timed(threads, |thread| {
        let mut draws = Draws(thread as u64 + 1);
        let mut sum = 0u64;
        for _ in 0..each {
            if let Some(read) = number(key(rank(&mut draws) as usize)) {
                sum = sum.wrapping_add(read);
            }
        }
        sum
    })
}

fn slots<T: Owned>(threads: usize, each: usize) -> (u128, u64) {
    let vector = Slots::<T>::new();
    for number in 0..STOCK {
        vector.push(T::new(number));
    }
    read_vector(threads, each, |place| vector.get(place).map(T::number))
}

fn guards<T: Owned>(threads: usize, each: usize) -> (u128, u64) {
    let map = DashMap::<u64, T, Fold>::default();
    for number in 0..RANKS {
        map.insert(key(number), T::new(number as u64));
    }
    read_map(threads, each, |key| map.get(&key).map(|value| value.number()))
}

fn upstream(form: &str, threads: usize, each: usize) -> (u128, u64) {
    match form {
        "owned_vec_arc" => {
            let vector = elsa::sync::FrozenVec::<Arc<u64>>::new();
            (0..STOCK).for_each(|number| vector.push(Arc::new(number)));
            read_vector(threads, each, |place| vector.get(place).copied())
        }
        "owned_vec_text" => {
            let vector = elsa::sync::FrozenVec::<String>::new();
            (0..STOCK).for_each(|number| vector.push(number.to_string()));
            read_vector(threads, each, |place| vector.get(place).map(of_text))
        }
        "owned_map_arc" => {
            let map = elsa::sync::FrozenMap::<u64, Arc<u64>>::new();
            for number in 0..RANKS {
                map.insert(key(number), Arc::new(number as u64));
            }
            read_map(threads, each, |key| map.get(&key).copied())
        }
        _ => {
            let map = elsa::sync::FrozenMap::<u64, String>::new();
            for number in 0..RANKS {
                map.insert(key(number), (number as u64).to_string());
            }
            read_map(threads, each, |key| map.get(&key).map(of_text))
        }
    }
}

fn main() {
    let mut words = std::env::args().skip(1);
    let side = words.next().expect("a side");
    let (form, threads, count) = words_of(words);
    let each = count / threads;
    let (nanos, sum) = match (side.as_str(), form.as_str()) {
        ("upstream", form) => upstream(form, threads, each),
        ("slots", "owned_vec_arc") => slots::<Arc<u64>>(threads, each),
        ("slots", "owned_vec_text") => slots::<String>(threads, each),
        ("dashmap", "owned_map_arc") => guards::<Arc<u64>>(threads, each),
        ("dashmap", "owned_map_text") => guards::<String>(threads, each),
        _ => panic!("a side and a form as at the head of this file"),
    };
    println!("{nanos} {sum}");
}
