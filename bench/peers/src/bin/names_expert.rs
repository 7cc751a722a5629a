//! `elsa intern` written by hand for this one job, as fast as we can make it: the mark for the program.
//!
//! A table of 8-byte entries (32 bits of the hash, and where the name's record is), indexed by the hash's high bits, so that it doubles by one pass
//! in order; names in one bump arena; one check of UTF-8 a chunk; 16 bytes at a time for the end of a line, its hash and its comparison; eight digits
//! of a number at once; answers written before the next read. The hash is seeded from the system at the start, since strangers choose the names.
//!
//! usage: names_expert [single] < LINES > ANSWERS        (single: each name is looked for before the next line is read)
use std::arch::x86_64::*;
use std::io;

/// How much is read at once, and how many answers wait at most.
const CHUNK: usize = 1 << 14;
/// What may be read behind the end of a text.
const SLACK: usize = 32;
/// What is reserved for the names: only what is written takes memory.
const ARENA: usize = 1 << 34;
/// Beyond so many bytes memory is asked for in huge pages.
const HUGE: usize = 1 << 21;
/// How much of the arena is asked for at once up to there: a page fault for each page would take longer.
const STEP: usize = 1 << 17;
/// Which the oldest libc crates don't name.
const MADV_POPULATE_WRITE: libc::c_int = 23;
/// A record begins at a multiple of this.
const UNIT: usize = 4;
/// The bytes of a record before its text: its number, its length.
const HEAD: usize = 8;

unsafe fn reserve(bytes: usize) -> *mut u8 {
    let all_at_once = if bytes <= HUGE { libc::MAP_POPULATE } else { 0 };
    let flags = libc::MAP_PRIVATE | libc::MAP_ANONYMOUS | libc::MAP_NORESERVE | all_at_once;
    let at = libc::mmap(std::ptr::null_mut(), bytes, libc::PROT_READ | libc::PROT_WRITE, flags, -1, 0);
    assert!(at != libc::MAP_FAILED, "no memory");
    if bytes > HUGE {
        libc::madvise(at.cast::<u8>().add(HUGE).cast(), bytes - HUGE, libc::MADV_HUGEPAGE);
    }
    at.cast()
}

/// The first `len` bytes of 16, the others zero.
#[inline(always)]
unsafe fn first_bytes(at: *const u8, len: usize) -> __m128i {
    static MASK: [u8; 32] = [255, 255, 255, 255, 255, 255, 255, 255, 255, 255, 255, 255, 255, 255, 255, 255, 0, 0, 0, 0, 0, 0, 0, 0, 0, 0, 0, 0, 0, 0, 0, 0];
    _mm_and_si128(_mm_loadu_si128(at.cast()), _mm_loadu_si128(MASK.as_ptr().add(16 - len).cast()))
}

#[inline(always)]
unsafe fn same_16(a: __m128i, b: __m128i) -> bool {
    _mm_movemask_epi8(_mm_cmpeq_epi8(a, b)) == 0xffff
}

#[inline(always)]
fn folded(a: u64, b: u64) -> u64 {
    let product = a as u128 * b as u128;
    product as u64 ^ (product >> 64) as u64
}

#[inline(always)]
unsafe fn halves(lane: __m128i) -> (u64, u64) {
    (_mm_cvtsi128_si64(lane) as u64, _mm_cvtsi128_si64(_mm_unpackhi_epi64(lane, lane)) as u64)
}

struct Names {
    seed: [u64; 2],
    entries: *mut u64,
    /// The table has two to the power of this many entries.
    bits: u32,
    arena: *mut u8,
    used: usize,
    ready: usize,
    /// Where each number's record is, in units.
    records: Vec<u32>,
}

impl Names {
    unsafe fn new() -> Names {
        let mut seed = [0u64; 2];
        assert!(libc::getrandom(seed.as_mut_ptr().cast(), 16, 0) == 16, "no random bytes");
        Names { seed, entries: reserve(8 << 10).cast(), bits: 10, arena: reserve(ARENA), used: UNIT, ready: 0, records: Vec::new() }
    }

    #[inline(always)]
    unsafe fn hash(&self, name: *const u8, len: usize) -> u32 {
        let [one, two] = self.seed;
        let mut state = one.wrapping_add((len as u64).wrapping_mul(two));
        let mut at = 0;
        while len - at > 16 {
            let (a, b) = halves(_mm_loadu_si128(name.add(at).cast()));
            state = folded(a ^ state, b ^ two);
            at += 16;
        }
        let (a, b) = halves(first_bytes(name.add(at), len - at));
        (folded(a ^ state, b ^ two) >> 32) as u32
    }

    #[inline(always)]
    unsafe fn is_at(&self, record: u32, name: *const u8, len: usize) -> bool {
        let record = self.arena.add(record as usize * UNIT);
        if *record.add(4).cast::<u32>() as usize != len {
            return false;
        }
        let text = record.add(HEAD);
        let mut at = 0;
        while len - at > 16 {
            if !same_16(_mm_loadu_si128(name.add(at).cast()), _mm_loadu_si128(text.add(at).cast())) {
                return false;
            }
            at += 16;
        }
        same_16(first_bytes(name.add(at), len - at), first_bytes(text.add(at), len - at))
    }

    /// The record of the name, or the place of the entry where one would go.
    #[inline(always)]
    unsafe fn look(&self, hash: u32, name: *const u8, len: usize) -> Result<u32, usize> {
        let mask = (1 << self.bits) - 1;
        let mut at = (hash >> (32 - self.bits)) as usize;
        loop {
            let entry = *self.entries.add(at);
            if entry == 0 {
                return Err(at);
            }
            if (entry >> 32) as u32 == hash && self.is_at(entry as u32, name, len) {
                return Ok(entry as u32);
            }
            at = (at + 1) & mask;
        }
    }

    #[inline(always)]
    unsafe fn number(&self, record: u32) -> u32 {
        *self.arena.add(record as usize * UNIT).cast::<u32>()
    }

    #[inline(always)]
    unsafe fn text(&self, number: usize) -> &[u8] {
        let record = self.arena.add(*self.records.get_unchecked(number) as usize * UNIT);
        std::slice::from_raw_parts(record.add(HEAD), *record.add(4).cast::<u32>() as usize)
    }

    /// Asks for the entry that a look will begin with.
    #[inline(always)]
    unsafe fn ask_for(&self, hash: u32) {
        _mm_prefetch::<_MM_HINT_T0>(self.entries.add((hash >> (32 - self.bits)) as usize).cast());
    }

    /// The name's number, its own or the next one; nothing where there is no room for it.
    #[inline(always)]
    unsafe fn put(&mut self, hash: u32, name: *const u8, len: usize) -> Option<u32> {
        match self.look(hash, name, len) {
            Ok(record) => Some(self.number(record)),
            Err(at) => self.add(hash, at, name, len),
        }
    }

    #[inline(always)]
    unsafe fn add(&mut self, hash: u32, at: usize, name: *const u8, len: usize) -> Option<u32> {
        if len > u32::MAX as usize || self.used + HEAD + len + SLACK > ARENA {
            return None;
        }
        let (number, record) = (self.records.len() as u32, (self.used / UNIT) as u32);
        let head = self.arena.add(self.used);
        if self.used + HEAD + len > self.ready {
            self.make_ready();
        }
        *head.cast::<u32>() = number;
        *head.add(4).cast::<u32>() = len as u32;
        if len <= 16 {
            _mm_storeu_si128(head.add(HEAD).cast(), _mm_loadu_si128(name.cast()));
        } else {
            std::ptr::copy_nonoverlapping(name, head.add(HEAD), len);
        }
        self.used = (self.used + HEAD + len + UNIT - 1) & !(UNIT - 1);
        *self.entries.add(at) = u64::from(hash) << 32 | u64::from(record);
        self.records.push(record);
        if self.records.len() >> (self.bits - 3) >= 6 {
            self.double();
        }
        Some(number)
    }

    /// More of the arena has its pages. Where that fails, they come one by one.
    #[cold]
    #[inline(never)]
    unsafe fn make_ready(&mut self) {
        if self.used < HUGE {
            libc::madvise(self.arena.add(self.ready).cast(), STEP, MADV_POPULATE_WRITE);
            self.ready += STEP;
        } else {
            self.ready = ARENA;
        }
    }

    /// Twice the table. An entry's place is its hash's high bits, so both tables are gone through from the front.
    #[cold]
    #[inline(never)]
    unsafe fn double(&mut self) {
        assert!(self.bits < 32, "no memory");
        let old = std::slice::from_raw_parts(self.entries, 1 << self.bits);
        let entries: *mut u64 = reserve(16 << self.bits).cast();
        let (shift, mask) = (31 - self.bits, (2 << self.bits) - 1);
        for &entry in old.iter().filter(|entry| **entry != 0) {
            let mut at = ((entry >> 32) as u32 >> shift) as usize;
            while *entries.add(at) != 0 {
                at = (at + 1) & mask;
            }
            *entries.add(at) = entry;
        }
        libc::munmap(self.entries.cast(), 8 << self.bits);
        self.entries = entries;
        self.bits += 1;
    }
}

/// Answers that wait to be written.
struct Answers {
    bytes: Vec<u8>,
    len: usize,
}

/// The eight digits of a number below 10^8, the first in the lowest byte: two halves of four, four of two, eight of one.
#[inline(always)]
fn eight_digits(number: u32) -> u64 {
    let halves = u64::from(number / 10_000) | u64::from(number % 10_000) << 32;
    let hundreds = (halves * 10_486 >> 20) & 0x7f_0000_007f;
    let pairs = hundreds | (halves - 100 * hundreds) << 16;
    let tens = (pairs * 103 >> 10) & 0x000f_000f_000f_000f;
    tens | (pairs - 10 * tens) << 8
}

impl Answers {
    fn flush(&mut self) -> io::Result<()> {
        let len = std::mem::take(&mut self.len);
        write_all(&self.bytes[..len])
    }

    fn line(&mut self, text: &[u8]) -> io::Result<()> {
        if text.len() + 1 > CHUNK - self.len {
            self.flush()?;
            if text.len() + 1 > CHUNK {
                write_all(text)?;
                return write_all(b"\n");
            }
        }
        self.bytes[self.len..self.len + text.len()].copy_from_slice(text);
        self.bytes[self.len + text.len()] = b'\n';
        self.len += text.len() + 1;
        Ok(())
    }

    #[inline(always)]
    unsafe fn number(&mut self, number: u32) -> io::Result<()> {
        if CHUNK - self.len < 16 {
            self.flush()?;
        }
        if number >= 100_000_000 {
            return self.line(number.to_string().as_bytes());
        }
        let digits = eight_digits(number);
        let zeros = (digits.trailing_zeros() / 8).min(7);
        let to = self.bytes.as_mut_ptr().add(self.len);
        to.cast::<u64>().write_unaligned((digits | 0x3030_3030_3030_3030) >> (8 * zeros));
        *to.add(8 - zeros as usize) = b'\n';
        self.len += 9 - zeros as usize;
        Ok(())
    }
}

fn write_all(mut bytes: &[u8]) -> io::Result<()> {
    while !bytes.is_empty() {
        let done = unsafe { libc::write(1, bytes.as_ptr().cast(), bytes.len()) };
        match done {
            1.. => bytes = &bytes[done as usize..],
            0 => return Err(io::ErrorKind::WriteZero.into()),
            _ if io::Error::last_os_error().kind() == io::ErrorKind::Interrupted => {}
            _ => return Err(io::Error::last_os_error()),
        }
    }
    Ok(())
}

fn read(room: &mut [u8]) -> io::Result<usize> {
    loop {
        let done = unsafe { libc::read(0, room.as_mut_ptr().cast(), room.len()) };
        if done >= 0 {
            return Ok(done as usize);
        }
        let error = io::Error::last_os_error();
        if error.kind() != io::ErrorKind::Interrupted {
            return Err(error);
        }
    }
}

/// How many bytes there are before the next byte 10, which is known to come; up to SLACK bytes behind it may be read.
#[inline(always)]
unsafe fn to_line_end(from: *const u8) -> usize {
    let mut at = 0;
    loop {
        let ends = _mm_movemask_epi8(_mm_cmpeq_epi8(_mm_loadu_si128(from.add(at).cast()), _mm_set1_epi8(10)));
        if ends != 0 {
            return at + ends.trailing_zeros() as usize;
        }
        at += 16;
    }
}

fn place_of(digits: &[u8]) -> Option<u64> {
    if digits.is_empty() {
        return None;
    }
    digits.iter().try_fold(0u64, |number, digit| match digit {
        b'0'..=b'9' => number.checked_mul(10)?.checked_add(u64::from(digit - b'0')),
        _ => None,
    })
}

/// Answers a line that isn't `put`, or no text.
#[cold]
#[inline(never)]
unsafe fn other(names: &mut Names, out: &mut Answers, line: &[u8]) -> io::Result<()> {
    if line == b"len" {
        return out.number(names.records.len() as u32);
    }
    if let Some(name) = line.strip_prefix(b"find ") {
        return match names.look(names.hash(name.as_ptr(), name.len()), name.as_ptr(), name.len()) {
            Ok(record) => out.number(names.number(record)),
            Err(_) => out.line(b"none"),
        };
    }
    let Some(place) = line.strip_prefix(b"at ").and_then(place_of) else {
        return out.line(b"bad line");
    };
    if place < names.records.len() as u64 {
        out.line(names.text(place as usize))
    } else {
        out.line(b"none")
    }
}

/// A name that is to be put, and its hash.
#[derive(Clone, Copy)]
struct Wanted {
    name: *const u8,
    len: usize,
    hash: u32,
}

#[inline(always)]
unsafe fn put_all(names: &mut Names, out: &mut Answers, wanted: &[Wanted]) -> io::Result<()> {
    for it in wanted {
        match names.put(it.hash, it.name, it.len) {
            Some(number) => out.number(number)?,
            None => out.line(b"no memory")?,
        }
    }
    Ok(())
}

/// Answers whole lines; SLACK bytes behind them may be read. AHEAD names are read before the first of them is looked for, so that their entries come
/// from memory side by side.
unsafe fn answer<const AHEAD: usize>(names: &mut Names, out: &mut Answers, lines: &[u8]) -> io::Result<()> {
    let is_text = std::str::from_utf8(lines).is_ok();
    let (mut at, end) = (lines.as_ptr(), lines.as_ptr().add(lines.len()));
    let mut wanted = [Wanted { name: at, len: 0, hash: 0 }; AHEAD];
    let mut count = 0;
    while at < end {
        let is_put = at.cast::<u32>().read_unaligned() == u32::from_le_bytes(*b"put ");
        let name = if is_put { at.add(4) } else { at };
        let len = to_line_end(name);
        let line = std::slice::from_raw_parts(name, len);
        at = name.add(len + 1);
        if is_put && (is_text || std::str::from_utf8(line).is_ok()) {
            let hash = names.hash(name, len);
            names.ask_for(hash);
            wanted[count] = Wanted { name, len, hash };
            count += 1;
            if count == AHEAD {
                put_all(names, out, &wanted)?;
                count = 0;
            }
            continue;
        }
        put_all(names, out, &wanted[..count])?;
        count = 0;
        if is_put || !is_text && std::str::from_utf8(line).is_err() {
            out.line(b"bad line")?;
        } else {
            other(names, out, line)?;
        }
    }
    put_all(names, out, &wanted[..count])
}

fn answer_all<const AHEAD: usize>() -> io::Result<()> {
    let mut names = unsafe { Names::new() };
    let mut out = Answers { bytes: vec![0; CHUNK], len: 0 };
    let mut input = vec![0u8; CHUNK + SLACK];
    let mut held = 0;
    loop {
        if held + SLACK == input.len() {
            input.resize(2 * held + SLACK, 0);
        }
        let room = input.len() - SLACK;
        let count = read(&mut input[held..room])?;
        let ended = count == 0;
        if ended && held == 0 {
            return Ok(());
        }
        if ended {
            input[held] = b'\n';
        }
        let fresh = held..held + if ended { 1 } else { count };
        let Some(last) = memchr::memrchr(b'\n', &input[fresh.clone()]) else {
            held = fresh.end;
            continue;
        };
        let whole = fresh.start + last + 1;
        unsafe { answer::<AHEAD>(&mut names, &mut out, &input[..whole])? };
        out.flush()?;
        if ended {
            return Ok(());
        }
        input.copy_within(whole..fresh.end, 0);
        held = fresh.end - whole;
    }
}

fn main() -> io::Result<()> {
    match std::env::args().nth(1) {
        Some(_) => answer_all::<1>(),
        None => answer_all::<16>(),
    }
}
