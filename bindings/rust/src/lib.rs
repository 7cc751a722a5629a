//! Numbers for texts, by the proved code of `elsa_c`.
//!
//! [`Interner`] gives each distinct text a [`Symbol`], and [`SharedInterner`] does so for threads. [`factorize`] numbers a
//! whole list at once. The code that compares, hashes and stores the texts is proved to meet its contracts; this crate passes
//! it valid pointers. Each hash has a secret of `RandomState`.
//!
//! ```
//! # fn main() -> Result<(), Box<dyn std::error::Error>> {
//! let mut names = elsa_proved::Interner::new();
//! let pear = names.get_or_intern("pear");
//! assert_eq!(names.resolve(pear), Some("pear"));
//! let symbols = elsa_proved::factorize(["pear", "apple", "pear"])?;
//! assert_eq!(symbols[0], symbols[2]);
//! # Ok(())
//! # }
//! ```

mod shared;

pub use shared::SharedInterner;

use std::collections::hash_map::RandomState;
use std::fmt::{self, Debug, Display, Formatter};
use std::hash::{BuildHasher, Hasher};
use std::os::raw::c_void;
use std::ptr;
use std::sync::{Mutex, MutexGuard, PoisonError};

/// The secret of a hash, as C has it.
#[repr(C)]
struct Seed {
    start: u64,
    factor: u64,
}

impl Seed {
    fn new() -> Seed {
        let state = RandomState::new();
        let word = |number| {
            let mut hasher = state.build_hasher();
            hasher.write_u8(number);
            hasher.finish()
        };
        Seed { start: word(0), factor: word(1) }
    }
}

/// The dictionary of C: a pointer that `elsa_c` owns. All zero but for the seed is one without texts.
#[repr(C)]
struct Raw {
    texts: *mut c_void,
    kept: bool,
    seed: Seed,
}

// Proved of the dictionary's type: it owns plain memory of the C allocator.
unsafe impl Send for Raw {}

extern "C" {
    fn elsa_factorize(
        bytes: *const u8, bytes_len: usize, ends: *const usize, ends_len: usize, codes: *mut usize, codes_len: usize,
        done: *mut usize, seed: *const Seed,
    ) -> u32;
    fn elsa_firsts(codes: *const usize, codes_len: usize, firsts: *mut usize, firsts_len: usize) -> usize;
    fn elsa_dictionary_put(dictionary: *mut Raw, text: *const u8, text_len: usize, code: *mut usize) -> u32;
    fn elsa_dictionary_put_many(
        dictionary: *mut Raw, bytes: *const u8, bytes_len: usize, ends: *const usize, ends_len: usize,
        codes: *mut usize, codes_len: usize, done: *mut usize,
    ) -> u32;
    fn elsa_dictionary_find(dictionary: *mut Raw, text: *const u8, text_len: usize, code: *mut usize) -> bool;
    fn elsa_dictionary_at(dictionary: *mut Raw, code: usize, text: *mut *const u8, len: *mut usize) -> bool;
    fn elsa_dictionary_len(dictionary: *mut Raw) -> usize;
    fn elsa_dictionary_free(dictionary: *mut Raw);
}

/// Why a call failed.
#[derive(Clone, Copy, Debug, PartialEq, Eq)]
pub enum Fault {
    /// An allocation failed.
    Memory,
    /// A text is not UTF-8.
    NotUtf8,
    /// An end is before the end of the text before it, or past the bytes.
    EndsOutOfOrder,
    /// There are 2^32 - 1 texts, and this one is new.
    Full,
}

impl Display for Fault {
    fn fmt(&self, out: &mut Formatter<'_>) -> fmt::Result {
        out.write_str(match self {
            Fault::Memory => "an allocation failed",
            Fault::NotUtf8 => "a text is not UTF-8",
            Fault::EndsOutOfOrder => "an end is before the one before it, or past the bytes",
            Fault::Full => "there are 2^32 - 1 texts",
        })
    }
}

impl std::error::Error for Fault {}

/// Returns `Ok` for the status 0, and else the fault.
fn checked(status: u32) -> Result<(), Fault> {
    Err(match status {
        0 => return Ok(()),
        1 => Fault::Memory,
        2 => Fault::NotUtf8,
        3 => Fault::EndsOutOfOrder,
        4 => Fault::Full,
        // The arrays of this crate have as many codes as texts.
        other => unreachable!("the fault {other}"),
    })
}

/// Why the texts of a list or a block did not all get their symbols: the fault at the first that has none, and the symbols
/// of the texts before it.
#[derive(Clone, Debug, PartialEq, Eq)]
pub struct BlockError {
    /// Why the text has no symbol.
    pub fault: Fault,
    /// The symbols of the texts before it.
    pub symbols: Vec<Symbol>,
}

impl Display for BlockError {
    fn fmt(&self, out: &mut Formatter<'_>) -> fmt::Result {
        write!(out, "{}, at text {}", self.fault, self.symbols.len())
    }
}

impl std::error::Error for BlockError {
    fn source(&self) -> Option<&(dyn std::error::Error + 'static)> {
        Some(&self.fault)
    }
}

/// What a call of C wrote for a block of `count` texts.
fn symbols_of(count: usize, call: impl FnOnce(*mut usize, &mut usize) -> u32) -> Result<Vec<Symbol>, BlockError> {
    let (mut codes, mut done) = (vec![0; count], 0);
    let status = call(codes.as_mut_ptr(), &mut done);
    let symbols = codes[..done].iter().map(|it| Symbol(*it as u32)).collect();
    match checked(status) {
        Ok(()) => Ok(symbols),
        Err(fault) => Err(BlockError { fault, symbols }),
    }
}

/// The texts in one block of bytes, with their ends.
fn block_of(texts: impl IntoIterator<Item = impl AsRef<str>>) -> (Vec<u8>, Vec<usize>) {
    let (mut bytes, mut ends) = (Vec::new(), Vec::new());
    for text in texts {
        bytes.extend_from_slice(text.as_ref().as_bytes());
        ends.push(bytes.len());
    }
    (bytes, ends)
}

/// The number of a text in its [`Interner`]: the first text has 0, the next 1, and so on.
#[derive(Clone, Copy, Debug, PartialEq, Eq, Hash, PartialOrd, Ord)]
pub struct Symbol(u32);

impl Symbol {
    /// Returns the number.
    pub fn index(self) -> usize {
        self.0 as usize
    }

    /// Returns the symbol with this number, or `None` if it is above 2^32 - 2.
    pub fn from_index(index: usize) -> Option<Symbol> {
        u32::try_from(index).ok().filter(|it| *it < u32::MAX).map(Symbol)
    }
}

/// Texts, each with a [`Symbol`]. It only grows, so a text stays at its address until the interner is dropped.
///
/// Threads may share it for reading; their reads take turns.
pub struct Interner {
    // `elsa_c` takes the texts out of the dictionary and restores them in each call, reads too. So a read has the lock.
    raw: Mutex<Raw>,
}

impl Default for Interner {
    fn default() -> Interner {
        Interner::new()
    }
}

impl Drop for Interner {
    fn drop(&mut self) {
        unsafe { elsa_dictionary_free(self.own()) }
    }
}

impl Interner {
    /// Makes an interner without texts. It allocates nothing.
    pub fn new() -> Interner {
        Interner { raw: Mutex::new(Raw { texts: ptr::null_mut(), kept: false, seed: Seed::new() }) }
    }

    /// The dictionary, to which nobody else has access.
    fn own(&mut self) -> &mut Raw {
        self.raw.get_mut().unwrap_or_else(PoisonError::into_inner)
    }

    /// The dictionary, while this thread reads it.
    fn read(&self) -> MutexGuard<'_, Raw> {
        self.raw.lock().unwrap_or_else(PoisonError::into_inner)
    }

    /// Returns the symbol of a text, which is copied if it is new.
    ///
    /// # Panics
    /// Panics if an allocation fails or if there are 2^32 - 1 texts; [`Interner::try_get_or_intern`] returns the fault.
    pub fn get_or_intern(&mut self, text: &str) -> Symbol {
        match self.try_get_or_intern(text) {
            Ok(symbol) => symbol,
            Err(fault) => panic!("interning a text of {} bytes: {fault}", text.len()),
        }
    }

    /// Returns the symbol of a text, which is copied if it is new.
    ///
    /// # Errors
    /// Fails with [`Fault::Memory`] or [`Fault::Full`] for a new text. The interner is then unchanged.
    #[inline]
    pub fn try_get_or_intern(&mut self, text: &str) -> Result<Symbol, Fault> {
        let mut code = 0;
        checked(unsafe { elsa_dictionary_put(self.own(), text.as_ptr(), text.len(), &mut code) })?;
        Ok(Symbol(code as u32))
    }

    /// Returns the symbols of some texts. New texts are copied.
    ///
    /// # Errors
    /// Fails at the first text that has no symbol. The texts before it stay interned.
    pub fn intern_all<T: AsRef<str>>(&mut self, texts: impl IntoIterator<Item = T>) -> Result<Vec<Symbol>, BlockError> {
        let (bytes, ends) = block_of(texts);
        self.intern_block(&bytes, &ends)
    }

    /// Returns the symbols of the texts of one block, in which text `i` ends before `ends[i]`. New texts are copied.
    ///
    /// # Errors
    /// Fails at the first text that has no symbol. The texts before it stay interned.
    pub fn intern_block(&mut self, bytes: &[u8], ends: &[usize]) -> Result<Vec<Symbol>, BlockError> {
        let raw = self.own();
        symbols_of(ends.len(), |codes, done| unsafe {
            elsa_dictionary_put_many(
                raw, bytes.as_ptr(), bytes.len(), ends.as_ptr(), ends.len(), codes, ends.len(), done,
            )
        })
    }

    /// Returns the symbol of a text, or `None` if it was never interned.
    #[inline]
    pub fn get(&self, text: &str) -> Option<Symbol> {
        let mut code = 0;
        let found = unsafe { elsa_dictionary_find(&mut *self.read(), text.as_ptr(), text.len(), &mut code) };
        found.then_some(Symbol(code as u32))
    }

    /// Returns the text of a symbol, or `None` if it is of another interner and above the texts of this one.
    #[inline]
    pub fn resolve(&self, symbol: Symbol) -> Option<&str> {
        let (mut text, mut len) = (ptr::null(), 0);
        if !unsafe { elsa_dictionary_at(&mut *self.read(), symbol.index(), &mut text, &mut len) } {
            return None;
        }
        if len == 0 {
            return Some("");
        }
        // A text was checked when it was interned, and neither changes nor moves while the interner exists.
        Some(unsafe { std::str::from_utf8_unchecked(std::slice::from_raw_parts(text, len)) })
    }

    /// Returns the number of texts.
    pub fn len(&self) -> usize {
        unsafe { elsa_dictionary_len(&mut *self.read()) }
    }

    /// Returns whether there are no texts.
    pub fn is_empty(&self) -> bool {
        self.len() == 0
    }

    /// Iterates over the texts with their symbols, in the order of the symbols.
    pub fn iter(&self) -> Iter<'_> {
        Iter { interner: self, next: 0, end: self.len() }
    }
}

impl Debug for Interner {
    fn fmt(&self, out: &mut Formatter<'_>) -> fmt::Result {
        out.debug_list().entries(self.iter().map(|(_, text)| text)).finish()
    }
}

impl Clone for Interner {
    /// Makes an interner with the same texts and symbols.
    fn clone(&self) -> Interner {
        self.iter().map(|(_, text)| text).collect()
    }
}

impl<T: AsRef<str>> Extend<T> for Interner {
    fn extend<Texts: IntoIterator<Item = T>>(&mut self, texts: Texts) {
        for text in texts {
            self.get_or_intern(text.as_ref());
        }
    }
}

impl<T: AsRef<str>> FromIterator<T> for Interner {
    fn from_iter<Texts: IntoIterator<Item = T>>(texts: Texts) -> Interner {
        let mut made = Interner::new();
        made.extend(texts);
        made
    }
}

impl<'a> IntoIterator for &'a Interner {
    type Item = (Symbol, &'a str);
    type IntoIter = Iter<'a>;

    fn into_iter(self) -> Iter<'a> {
        self.iter()
    }
}

/// What an [`Iter`] reads. No other crate can implement it.
pub trait Texts: sealed::Sealed {
    #[doc(hidden)]
    fn text(&self, symbol: Symbol) -> Option<&str>;
}

mod sealed {
    pub trait Sealed {}

    impl Sealed for crate::Interner {}
    impl Sealed for crate::SharedInterner {}
}

impl Texts for Interner {
    fn text(&self, symbol: Symbol) -> Option<&str> {
        self.resolve(symbol)
    }
}

/// The texts of an [`Interner`] or a [`SharedInterner`] with their symbols.
pub struct Iter<'a, I: Texts = Interner> {
    interner: &'a I,
    next: usize,
    end: usize,
}

impl<'a, I: Texts> Iterator for Iter<'a, I> {
    type Item = (Symbol, &'a str);

    fn next(&mut self) -> Option<(Symbol, &'a str)> {
        if self.next >= self.end {
            return None;
        }
        let symbol = Symbol::from_index(self.next)?;
        self.next += 1;
        Some((symbol, self.interner.text(symbol)?))
    }

    fn size_hint(&self) -> (usize, Option<usize>) {
        (self.end - self.next, Some(self.end - self.next))
    }
}

impl<I: Texts> ExactSizeIterator for Iter<'_, I> {}

/// Returns the symbol of each text: equal texts have equal symbols, from 0 on in the order of first texts.
///
/// # Errors
/// Fails at the first text that has no symbol.
pub fn factorize<T: AsRef<str>>(texts: impl IntoIterator<Item = T>) -> Result<Vec<Symbol>, BlockError> {
    let (bytes, ends) = block_of(texts);
    factorize_block(&bytes, &ends)
}

/// Returns the symbol of each text of one block, in which text `i` ends before `ends[i]`, as [`factorize`] does.
///
/// # Errors
/// Fails at the first text that has no symbol.
pub fn factorize_block(bytes: &[u8], ends: &[usize]) -> Result<Vec<Symbol>, BlockError> {
    let seed = Seed::new();
    symbols_of(ends.len(), |codes, done| unsafe {
        elsa_factorize(bytes.as_ptr(), bytes.len(), ends.as_ptr(), ends.len(), codes, ends.len(), done, &seed)
    })
}

/// Returns the index at which each symbol occurs first, for symbols of [`factorize`].
pub fn firsts(symbols: &[Symbol]) -> Vec<usize> {
    let codes: Vec<usize> = symbols.iter().map(|it| it.index()).collect();
    let mut found = vec![0; codes.iter().max().map_or(0, |it| it + 1).min(codes.len())];
    let count = unsafe { elsa_firsts(codes.as_ptr(), codes.len(), found.as_mut_ptr(), found.len()) };
    found.truncate(count);
    found
}

#[cfg(test)]
mod tests {
    use super::*;

    #[test]
    fn two_interners_have_one_seed() {
        let words = |it: &Interner| { let raw = it.read(); (raw.seed.start, raw.seed.factor) };
        let (one, other) = (words(&Interner::new()), words(&Interner::new()));
        assert!(one.0 != other.0 && one.1 != other.1 && one.0 != one.1, "{one:?} {other:?}");
    }
}
