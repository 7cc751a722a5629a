//! What the programs beside ours share: cutting lines, and numbers by chance that both sides draw alike.
use std::io::{self, BufRead, Read, Write};

/// What `names` keeps: each name with its number.
pub trait Names {
    fn put(&mut self, name: &str) -> usize;
    fn find(&self, name: &str) -> Option<usize>;
    fn at(&self, number: usize) -> Option<&str>;
    fn len(&self) -> usize;
}

fn number(digits: &str) -> Option<u64> {
    if digits.is_empty() || !digits.bytes().all(|b| b.is_ascii_digit()) {
        return None;
    }
    digits.parse().ok()
}

/// Answers each line of standard input as `elsa intern` does.
pub fn answer_lines(names: &mut impl Names) -> io::Result<()> {
    let mut input = io::BufReader::with_capacity(8192, io::stdin().lock());
    let mut output = io::BufWriter::with_capacity(8192, io::stdout().lock());
    let mut line = Vec::new();
    loop {
        line.clear();
        if input.by_ref().read_until(b'\n', &mut line)? == 0 {
            return output.flush();
        }
        if line.last() == Some(&b'\n') {
            line.pop();
        }
        let Ok(text) = std::str::from_utf8(&line) else {
            output.write_all(b"bad line\n")?;
            continue;
        };
        if let Some(name) = text.strip_prefix("put ") {
            writeln!(output, "{}", names.put(name))?;
        } else if let Some(name) = text.strip_prefix("find ") {
            match names.find(name) {
                Some(place) => writeln!(output, "{place}")?,
                None => output.write_all(b"none\n")?,
            }
        } else if let Some(place) = text.strip_prefix("at ").and_then(number) {
            match names.at(place as usize) {
                Some(name) => writeln!(output, "{name}")?,
                None => output.write_all(b"none\n")?,
            }
        } else if text == "len" {
            writeln!(output, "{}", names.len())?;
        } else {
            output.write_all(b"bad line\n")?;
        }
    }
}

/// Numbers that look like chance, the same on both sides.
pub struct Draws(pub u64);

impl Draws {
    #[inline(always)]
    pub fn next(&mut self) -> u64 {
        self.0 = self.0.wrapping_mul(6364136223846793005).wrapping_add(1442695040888963407);
        self.0 >> 33
    }

    /// A place below the count, which is at most 2^31.
    #[inline(always)]
    pub fn below(&mut self, count: usize) -> usize {
        (self.next().wrapping_mul(count as u64) >> 31) as usize
    }
}

/// A number below 65,535, each doubling as likely as the others.
#[inline(always)]
pub fn rank(draws: &mut Draws) -> u64 {
    let size = 1u64 << (draws.next() & 15);
    size - 1 + (draws.next() & (size - 1))
}

/// The key of a place: no two are equal, and they have no order.
#[inline(always)]
pub fn key(place: usize) -> u64 {
    (place as u64).wrapping_mul(0x9e3779b97f4a7c15)
}

/// The text of a place: no two are equal.
pub fn text(place: usize) -> String {
    format!("name{place}")
}

/// The hash that ours takes where no other is named, in Rust.
#[derive(Clone, Copy)]
pub struct FoldHasher(u64);

/// Its builder.
pub type Fold = std::hash::BuildHasherDefault<FoldHasher>;

const MULTIPLIER: u64 = 0x9e37_79b9_7f4a_7c15;

impl Default for FoldHasher {
    #[inline(always)]
    fn default() -> FoldHasher {
        FoldHasher(0x243f_6a88_85a3_08d3)
    }
}

#[inline(always)]
fn folded(a: u64, b: u64) -> u64 {
    let product = a as u128 * b as u128;
    product as u64 ^ (product >> 64) as u64
}

#[inline(always)]
fn word(bytes: &[u8], at: usize) -> u64 {
    u64::from_le_bytes(bytes[at..at + 8].try_into().unwrap())
}

#[inline(always)]
fn half_word(bytes: &[u8], at: usize) -> u64 {
    u64::from(u32::from_le_bytes(bytes[at..at + 4].try_into().unwrap()))
}

/// The state after one write to a hasher; `begun` is the state before a text of more than 8 bytes.
#[inline(always)]
fn written(state: u64, factor: u64, begun: u64, bytes: &[u8]) -> u64 {
    let len = bytes.len();
    if len <= 8 {
        let short = match len {
            4.. => half_word(bytes, 0) | half_word(bytes, len - 4) << 32,
            1.. => u64::from(bytes[0]) | u64::from(bytes[len / 2]) << 8 | u64::from(bytes[len - 1]) << 16,
            0 => 0,
        };
        return folded(state ^ short, factor ^ (2 * len as u64));
    }
    let mut state = begun;
    let mut at = 0;
    while len - at > 16 {
        state = folded(word(bytes, at) ^ state, word(bytes, at + 8) ^ factor);
        at += 16;
    }
    folded(word(bytes, len.saturating_sub(16)) ^ state, word(bytes, len - 8) ^ factor)
}

impl std::hash::Hasher for FoldHasher {
    #[inline(always)]
    fn finish(&self) -> u64 {
        self.0
    }

    #[inline(always)]
    fn write_u64(&mut self, number: u64) {
        self.0 = folded(self.0 ^ number, MULTIPLIER ^ 16);
    }

    /// Only of the byte that ends a text, which a text that is hashed alone can do without.
    #[inline(always)]
    fn write_u8(&mut self, _end: u8) {}

    #[inline(always)]
    fn write(&mut self, bytes: &[u8]) {
        self.0 = written(self.0, MULTIPLIER, self.0.wrapping_add(bytes.len() as u64), bytes);
    }
}

/// The hash of `elsa intern` for texts, in Rust: two words of it are secret.
pub struct SeededHasher {
    state: u64,
    factor: u64,
}

impl std::hash::Hasher for SeededHasher {
    #[inline(always)]
    fn finish(&self) -> u64 {
        self.state
    }

    /// Only of the byte that ends a text, which a text that is hashed alone can do without.
    #[inline(always)]
    fn write_u8(&mut self, _end: u8) {}

    #[inline(always)]
    fn write(&mut self, bytes: &[u8]) {
        let begun = self.state.wrapping_add((bytes.len() as u64).wrapping_mul(self.factor));
        self.state = written(self.state, self.factor, begun, bytes);
    }
}

/// Its builder, with the two secret words.
#[derive(Clone)]
pub struct Seeded {
    start: u64,
    factor: u64,
}

impl Default for Seeded {
    fn default() -> Seeded {
        let secret = std::collections::hash_map::RandomState::new();
        let word = |number: u64| std::hash::BuildHasher::hash_one(&secret, number);
        Seeded { start: word(0), factor: word(1) }
    }
}

impl std::hash::BuildHasher for Seeded {
    type Hasher = SeededHasher;

    #[inline(always)]
    fn build_hasher(&self) -> SeededHasher {
        SeededHasher { state: self.start, factor: self.factor }
    }
}

/// Calls each of so many pieces of work, the front half in a new thread and the back half in this one: as our side starts its threads.
fn fork(from: usize, count: usize, work: &(impl Fn(usize) -> u64 + Sync)) -> u64 {
    if count == 1 {
        return work(from);
    }
    let low = count / 2;
    std::thread::scope(|scope| {
        let front = scope.spawn(move || fork(from, low, work));
        let back = fork(from + low, count - low, work);
        front.join().unwrap().wrapping_add(back)
    })
}

/// The nanoseconds between the start of the threads and the end of the last one, and the sum of what they return.
pub fn timed(threads: usize, work: impl Fn(usize) -> u64 + Sync) -> (u128, u64) {
    let start = std::time::Instant::now();
    let sum = fork(0, threads, &work);
    (start.elapsed().as_nanos(), sum)
}

/// A form and two numbers.
pub fn words_of(mut words: impl Iterator<Item = String>) -> (String, usize, usize) {
    let form = words.next().expect("a form");
    let threads = words.next().and_then(|w| w.parse().ok()).expect("a number of threads");
    let count = words.next().and_then(|w| w.parse().ok()).expect("a count");
    (form, threads, count)
}
