//! Concurrent vectors: upstream's (`upstream`), std's and `parking_lot`'s lock round a `Vec` (`std`, `parking_lot`), and `slots`: buckets of slots that
//! say one by one whether they are written, as the crate boxcar has them, which Debian doesn't package. `slots` promises less: a place may be empty
//! while a later one is written, and it knows no length.
//!
//! usage: lock_free SIDE FORM THREADS COUNT. `push` (COUNT pushes in all), `extend` (the same in batches of 64), and COUNT reads in
//! all: `seen` and `plain` (both by `get`: none of these has another way), with `_in_order` for places one after the other, and with `_beside` for a
//! thread that pushes as long as they last; `growing` (each next place as soon as it is there, and from the first again where it isn't), with `_beside`
//! too; `walk` (ten walks over COUNT items by `get`); and `exchange` (COUNT times two exchanges of one word, which is the least that a push of ours can
//! take). It prints the nanoseconds between the start of the threads that are timed and the end of the last of them, and a sum.
use elsa::sync::LockFreeFrozenVec;
use peers::{timed, words_of, Draws};
use std::cell::UnsafeCell;
use std::sync::atomic::{AtomicBool, AtomicPtr, AtomicU64, AtomicUsize, Ordering};
use std::time::Instant;

const STOCK: u64 = 1 << 17;
const BESIDE: u64 = 100_000_000;
const WALKS: usize = 10;
const BATCH: usize = 64;

/// A vector that threads share.
trait Shared: Sync {
    fn push(&self, item: u64) -> usize;
    fn get(&self, place: usize) -> Option<u64>;

    /// Pushes the items, and returns the place of the first.
    fn extend(&self, items: &[u64]) -> usize {
        let place = self.push(items[0]);
        for item in &items[1..] {
            self.push(*item);
        }
        place
    }
}

impl Shared for LockFreeFrozenVec<u64> {
    #[inline(always)]
    fn push(&self, item: u64) -> usize {
        LockFreeFrozenVec::push(self, item)
    }

    #[inline(always)]
    fn get(&self, place: usize) -> Option<u64> {
        LockFreeFrozenVec::get(self, place)
    }
}

impl Shared for std::sync::RwLock<Vec<u64>> {
    #[inline(always)]
    fn push(&self, item: u64) -> usize {
        let mut items = self.write().unwrap();
        items.push(item);
        items.len() - 1
    }

    fn extend(&self, batch: &[u64]) -> usize {
        let mut items = self.write().unwrap();
        items.extend_from_slice(batch);
        items.len() - batch.len()
    }

    #[inline(always)]
    fn get(&self, place: usize) -> Option<u64> {
        self.read().unwrap().get(place).copied()
    }
}

impl Shared for parking_lot::RwLock<Vec<u64>> {
    #[inline(always)]
    fn push(&self, item: u64) -> usize {
        let mut items = self.write();
        items.push(item);
        items.len() - 1
    }

    fn extend(&self, batch: &[u64]) -> usize {
        let mut items = self.write();
        items.extend_from_slice(batch);
        items.len() - batch.len()
    }

    #[inline(always)]
    fn get(&self, place: usize) -> Option<u64> {
        self.read().get(place).copied()
    }
}

struct Slot {
    item: UnsafeCell<u64>,
    written: AtomicBool,
}

const BUCKETS: usize = 48;
const FIRST: usize = 32;

/// Buckets, each twice as long as the one before.
struct Slots {
    next: AtomicUsize,
    buckets: [AtomicPtr<Slot>; BUCKETS],
}

// Safe: a slot is written once, by the thread that took its place, and read only where it says that it is written.
unsafe impl Sync for Slots {}

impl Slots {
    fn new() -> Slots {
        Slots { next: AtomicUsize::new(0), buckets: [const { AtomicPtr::new(std::ptr::null_mut()) }; BUCKETS] }
    }

    /// The bucket of a place, its length, and where in it the place is.
    #[inline(always)]
    fn locate(place: usize) -> (usize, usize, usize) {
        let bucket = ((place + FIRST).ilog2() - FIRST.ilog2()) as usize;
        let length = FIRST << bucket;
        (bucket, length, place + FIRST - length)
    }

    #[cold]
    #[inline(never)]
    fn make(&self, bucket: usize, length: usize) -> *mut Slot {
        let layout = std::alloc::Layout::array::<Slot>(length).unwrap();
        // Safe: the layout has bytes, and a slot of zeros is one that isn't written. The bucket of whoever comes second is freed.
        let made = unsafe { std::alloc::alloc_zeroed(layout) }.cast::<Slot>();
        assert!(!made.is_null(), "no memory");
        match self.buckets[bucket].compare_exchange(std::ptr::null_mut(), made, Ordering::AcqRel, Ordering::Acquire) {
            Ok(_) => made,
            Err(there) => {
                unsafe { std::alloc::dealloc(made.cast(), layout) };
                there
            }
        }
    }
}

impl Shared for Slots {
    #[inline(always)]
    fn push(&self, item: u64) -> usize {
        let place = self.next.fetch_add(1, Ordering::Relaxed);
        let (bucket, length, at) = Slots::locate(place);
        let mut slots = self.buckets[bucket].load(Ordering::Acquire);
        if slots.is_null() {
            slots = self.make(bucket, length);
        }
        // Safe: the place is this thread's alone, and in the bucket.
        unsafe {
            let slot = &*slots.add(at);
            *slot.item.get() = item;
            slot.written.store(true, Ordering::Release);
        }
        place
    }

    #[inline(always)]
    fn get(&self, place: usize) -> Option<u64> {
        let (bucket, _, at) = Slots::locate(place);
        let slots = self.buckets.get(bucket)?.load(Ordering::Acquire);
        if slots.is_null() {
            return None;
        }
        // Safe: the place is in the bucket, and read only where it is written.
        unsafe {
            let slot = &*slots.add(at);
            slot.written.load(Ordering::Acquire).then(|| *slot.item.get())
        }
    }
}

impl Drop for Slots {
    fn drop(&mut self) {
        for (bucket, slots) in self.buckets.iter_mut().enumerate() {
            let slots = *slots.get_mut();
            if !slots.is_null() {
                let layout = std::alloc::Layout::array::<Slot>(FIRST << bucket).unwrap();
                // Safe: it was allocated with this layout.
                unsafe { std::alloc::dealloc(slots.cast(), layout) };
            }
        }
    }
}

fn push(vector: &impl Shared, count: usize) -> u64 {
    let mut sum = 0u64;
    for item in 0..count as u64 {
        sum = sum.wrapping_add(vector.push(item) as u64);
    }
    sum
}

fn extend(vector: &impl Shared, count: usize) -> u64 {
    let batch = [1u64; BATCH];
    (0..count / BATCH).fold(0u64, |sum, _| sum.wrapping_add(vector.extend(&batch) as u64))
}

fn push_beside(vector: &impl Shared, done: &AtomicBool) {
    for item in 0..BESIDE {
        if done.load(Ordering::SeqCst) {
            return;
        }
        vector.push(item);
    }
}

fn random(vector: &impl Shared, thread: usize, count: usize) -> u64 {
    let mut draws = Draws(thread as u64 + 1);
    let mut sum = 0u64;
    for _ in 0..count {
        if let Some(item) = vector.get((draws.next() & (STOCK - 1)) as usize) {
            sum = sum.wrapping_add(item);
        }
    }
    sum
}

fn in_order(vector: &impl Shared, _thread: usize, count: usize) -> u64 {
    let mut next = 0u64;
    let mut sum = 0u64;
    for _ in 0..count {
        let place = next & (STOCK - 1);
        next = place + 1;
        if let Some(item) = vector.get(place as usize) {
            sum = sum.wrapping_add(item);
        }
    }
    sum
}

fn growing(vector: &impl Shared, _thread: usize, count: usize) -> u64 {
    let mut place = 0usize;
    let mut sum = 0u64;
    for _ in 0..count {
        match vector.get(place) {
            Some(item) => {
                sum = sum.wrapping_add(item);
                place += 1;
            }
            None => place = 0,
        }
    }
    sum
}

fn walk(vector: &impl Shared) -> u64 {
    let mut sum = 0u64;
    let mut place = 0;
    while let Some(item) = vector.get(place) {
        sum = sum.wrapping_add(item);
        place += 1;
    }
    sum
}

fn exchanges(count: usize) -> (u128, u64) {
    let word = AtomicU64::new(0);
    let start = Instant::now();
    for turn in 0..count as u64 {
        let now = turn * 2;
        let _ = word.compare_exchange(now, now + 1, Ordering::SeqCst, Ordering::SeqCst);
        let _ = word.compare_exchange(now + 1, now + 2, Ordering::SeqCst, Ordering::SeqCst);
    }
    (start.elapsed().as_nanos(), word.load(Ordering::SeqCst))
}

fn run(vector: &impl Shared, form: &str, threads: usize, count: usize) -> (u128, u64) {
    let each = count / threads;
    let (reads, beside) = match form.strip_suffix("_beside") {
        Some(reads) => (reads, true),
        None => (form, false),
    };
    if reads == "push" {
        return timed(threads, |_| push(vector, each));
    }
    if reads == "extend" {
        return timed(threads, |_| extend(vector, each));
    }
    if reads == "walk" {
        push(vector, count);
        let start = Instant::now();
        let sum = (0..WALKS).fold(0u64, |sum, _| sum.wrapping_add(walk(vector)));
        return (start.elapsed().as_nanos(), sum);
    }
    push(vector, STOCK as usize);
    let done = AtomicBool::new(false);
    let done = &done;
    std::thread::scope(|scope| {
        if beside {
            scope.spawn(move || push_beside(vector, done));
        }
        let answer = match reads {
            "growing" => timed(threads, |thread| growing(vector, thread, each)),
            "seen_in_order" | "plain_in_order" => timed(threads, |thread| in_order(vector, thread, each)),
            "seen" | "plain" => timed(threads, |thread| random(vector, thread, each)),
            _ => panic!("a form as at the head of this file"),
        };
        done.store(true, Ordering::SeqCst);
        answer
    })
}

fn main() {
    let mut words = std::env::args().skip(1);
    let side = words.next().expect("a side");
    let (form, threads, count) = words_of(words);
    let (nanos, sum) = match (form.as_str(), side.as_str()) {
        ("exchange", _) => exchanges(count),
        (_, "upstream") => run(&LockFreeFrozenVec::new(), &form, threads, count),
        (_, "std") => run(&std::sync::RwLock::new(Vec::new()), &form, threads, count),
        (_, "parking_lot") => run(&parking_lot::RwLock::new(Vec::new()), &form, threads, count),
        (_, "slots") => run(&Slots::new(), &form, threads, count),
        _ => panic!("a side as at the head of this file"),
    };
    println!("{nanos} {sum}");
}
