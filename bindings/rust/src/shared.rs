//! [`SharedInterner`]: texts with symbols that threads share.

use crate::{checked, Fault, Iter, Seed, Symbol, Texts};
use std::cell::UnsafeCell;
use std::fmt::{self, Debug, Formatter};
use std::hint::spin_loop;
use std::os::raw::c_void;
use std::ptr;
use std::sync::atomic::{AtomicBool, AtomicUsize, Ordering};
use std::sync::Arc;
use std::thread::yield_now;

/// A handle of C: a pointer that `elsa_c` owns. All zero is one without names.
#[repr(C)]
struct Raw {
    names: *mut c_void,
    kept: bool,
}

extern "C" {
    fn elsa_shared_new(names: *mut Raw, seed: *const Seed) -> u32;
    fn elsa_shared_again(names: *mut Raw, other: *mut Raw) -> u32;
    fn elsa_shared_find(names: *mut Raw, text: *const u8, text_len: usize, code: *mut usize) -> bool;
    fn elsa_shared_try_put(names: *mut Raw, text: *const u8, text_len: usize, code: *mut usize) -> u32;
    fn elsa_shared_at(names: *mut Raw, code: usize, text: *mut *const u8, len: *mut usize) -> bool;
    fn elsa_shared_len(names: *mut Raw) -> usize;
    fn elsa_shared_free(names: *mut Raw);
}

/// The status of a call that did not wait while another thread added a text.
const BUSY: u32 = 6;

/// The greatest number of handles, and so of calls at once: a further call waits for one of them.
const SLOTS: usize = 64;

/// After this many attempts a thread yields between two of them.
const SPINS: u32 = 7;

/// A handle, which is given to one call at a time.
// The alignment keeps the slots of two threads out of one cache line, and of two that are read together.
#[repr(align(128))]
struct Slot {
    is_taken: AtomicBool,
    raw: UnsafeCell<Raw>,
}

// Only the thread that has taken a slot reads or writes its handle, and a handle may move to another thread: that is proved
// of the handle's type.
unsafe impl Sync for Slot {}
unsafe impl Send for Slot {}

impl Slot {
    fn take(&self) -> Option<Taken<'_>> {
        let free = !self.is_taken.load(Ordering::Relaxed) && !self.is_taken.swap(true, Ordering::Acquire);
        // Only the thread that has taken the slot makes a `Taken`, since its drop frees the slot.
        free.then(|| Taken { slot: self })
    }
}

/// A slot while this thread has it.
struct Taken<'a> {
    slot: &'a Slot,
}

impl Taken<'_> {
    fn raw(&mut self) -> &mut Raw {
        // `Slot::take` returned to this thread alone, until the drop below.
        unsafe { &mut *self.slot.raw.get() }
    }
}

impl Drop for Taken<'_> {
    fn drop(&mut self) {
        self.slot.is_taken.store(false, Ordering::Release);
    }
}

/// The handles of one interner. The first always has names, and others get them at their first call.
struct Handles {
    slots: [Slot; SLOTS],
}

impl Drop for Handles {
    fn drop(&mut self) {
        for slot in &mut self.slots {
            unsafe { elsa_shared_free(slot.raw.get_mut()) }
        }
    }
}

/// The number of this thread, from which it looks for a slot.
fn number_of_thread() -> usize {
    static NEXT: AtomicUsize = AtomicUsize::new(0);
    thread_local!(static NUMBER: usize = NEXT.fetch_add(1, Ordering::Relaxed));
    NUMBER.try_with(|it| *it).unwrap_or(0)
}

impl Handles {
    /// The first handle, once no other call has it. Whoever has it waits for no slot.
    fn first(&self) -> Taken<'_> {
        loop {
            if let Some(taken) = self.slots[0].take() {
                return taken;
            }
            yield_now();
        }
    }

    /// A handle that no other call has.
    #[inline]
    fn take(&self) -> Taken<'_> {
        let own = number_of_thread();
        loop {
            for at in own..own + SLOTS {
                if let Some(mut taken) = self.slots[at % SLOTS].take() {
                    if taken.raw().kept || self.fill(&mut taken) {
                        return taken;
                    }
                    // No memory for another handle. This slot is free again when the first one is taken.
                    drop(taken);
                    return self.first();
                }
            }
            yield_now();
        }
    }

    /// Makes a handle of the names in a slot that has none. Returns whether there was memory for it.
    #[cold]
    fn fill(&self, empty: &mut Taken<'_>) -> bool {
        unsafe { elsa_shared_again(self.first().raw(), empty.raw()) == 0 }
    }
}

/// Texts, each with a [`Symbol`], which threads share: a text has one symbol, whichever thread interns it first. It only
/// grows, so a text stays at its address until the last clone is dropped.
///
/// A clone shares the texts. A look-up takes no lock that a thread holds while it inserts; an insertion of a new text waits,
/// with a spin and then a yield, while another thread inserts one. Each call has one of 64 handles for its time.
///
/// ```
/// let names = elsa_proved::SharedInterner::new();
/// let pear = names.get_or_intern("pear");
/// std::thread::scope(|scope| {
///     for _ in 0..4 {
///         scope.spawn(|| assert_eq!(names.get_or_intern("pear"), pear));
///     }
/// });
/// assert_eq!((names.resolve(pear), names.len()), (Some("pear"), 1));
/// ```
#[derive(Clone)]
pub struct SharedInterner {
    handles: Arc<Handles>,
}

impl Default for SharedInterner {
    fn default() -> SharedInterner {
        SharedInterner::new()
    }
}

impl SharedInterner {
    /// Makes an interner without texts.
    ///
    /// # Panics
    /// Panics if an allocation fails; [`SharedInterner::try_new`] returns the fault.
    pub fn new() -> SharedInterner {
        match SharedInterner::try_new() {
            Ok(names) => names,
            Err(fault) => panic!("making an interner: {fault}"),
        }
    }

    /// Makes an interner without texts.
    ///
    /// # Errors
    /// Fails with [`Fault::Memory`] if an allocation of `elsa_c` fails.
    pub fn try_new() -> Result<SharedInterner, Fault> {
        let none = || Slot { is_taken: AtomicBool::new(false), raw: UnsafeCell::new(Raw { names: ptr::null_mut(), kept: false }) };
        let handles = Handles { slots: std::array::from_fn(|_| none()) };
        checked(unsafe { elsa_shared_new(handles.first().raw(), &Seed::new()) })?;
        Ok(SharedInterner { handles: Arc::new(handles) })
    }

    /// Returns the symbol of a text, which is copied if it is new.
    ///
    /// # Panics
    /// Panics if an allocation fails or if there are 2^32 - 1 texts; [`SharedInterner::try_get_or_intern`] returns the fault.
    pub fn get_or_intern(&self, text: &str) -> Symbol {
        match self.try_get_or_intern(text) {
            Ok(symbol) => symbol,
            Err(fault) => panic!("interning a text of {} bytes: {fault}", text.len()),
        }
    }

    /// Returns the symbol of a text, which is copied if it is new.
    ///
    /// # Errors
    /// Fails with [`Fault::Memory`] or [`Fault::Full`] for a new text. This call has then added nothing.
    #[inline]
    pub fn try_get_or_intern(&self, text: &str) -> Result<Symbol, Fault> {
        let (mut taken, mut code, mut attempts) = (self.handles.take(), 0, 0);
        loop {
            let status = unsafe { elsa_shared_try_put(taken.raw(), text.as_ptr(), text.len(), &mut code) };
            if status != BUSY {
                checked(status)?;
                return Ok(Symbol(code as u32));
            }
            wait(&mut attempts);
        }
    }

    /// Returns the symbol of a text, or `None` if no thread has interned it.
    #[inline]
    pub fn get(&self, text: &str) -> Option<Symbol> {
        let mut code = 0;
        let found = unsafe { elsa_shared_find(self.handles.take().raw(), text.as_ptr(), text.len(), &mut code) };
        found.then_some(Symbol(code as u32))
    }

    /// Returns the text of a symbol, or `None` if it is of another interner and above the texts of this one.
    #[inline]
    pub fn resolve(&self, symbol: Symbol) -> Option<&str> {
        let (mut text, mut len) = (ptr::null(), 0);
        if !unsafe { elsa_shared_at(self.handles.take().raw(), symbol.index(), &mut text, &mut len) } {
            return None;
        }
        if len == 0 {
            return Some("");
        }
        // A text was checked when it was interned, and neither changes nor moves while a handle of the names exists.
        Some(unsafe { std::str::from_utf8_unchecked(std::slice::from_raw_parts(text, len)) })
    }

    /// Returns the number of texts.
    pub fn len(&self) -> usize {
        unsafe { elsa_shared_len(self.handles.take().raw()) }
    }

    /// Returns whether there are no texts.
    pub fn is_empty(&self) -> bool {
        self.len() == 0
    }

    /// Iterates over the texts that there are now, with their symbols, in the order of the symbols.
    pub fn iter(&self) -> Iter<'_, SharedInterner> {
        Iter { interner: self, next: 0, end: self.len() }
    }
}

/// Lets another thread end its insertion: by a spin, twice as long each time, and then by a yield.
#[cold]
fn wait(attempts: &mut u32) {
    if *attempts >= SPINS {
        return yield_now();
    }
    for _ in 0..1 << *attempts {
        spin_loop();
    }
    *attempts += 1;
}

impl Texts for SharedInterner {
    fn text(&self, symbol: Symbol) -> Option<&str> {
        self.resolve(symbol)
    }
}

impl Debug for SharedInterner {
    fn fmt(&self, out: &mut Formatter<'_>) -> fmt::Result {
        out.debug_list().entries(self.iter().map(|(_, text)| text)).finish()
    }
}

impl<T: AsRef<str>> FromIterator<T> for SharedInterner {
    fn from_iter<Texts: IntoIterator<Item = T>>(texts: Texts) -> SharedInterner {
        let made = SharedInterner::new();
        for text in texts {
            made.get_or_intern(text.as_ref());
        }
        made
    }
}

impl<'a> IntoIterator for &'a SharedInterner {
    type Item = (Symbol, &'a str);
    type IntoIter = Iter<'a, SharedInterner>;

    fn into_iter(self) -> Iter<'a, SharedInterner> {
        self.iter()
    }
}

#[cfg(test)]
mod tests {
    use super::*;

    #[test]
    fn a_slot_is_given_to_two_calls() {
        let names = SharedInterner::new();
        let slots = &names.handles.slots;
        let taken: Vec<_> = slots.iter().map(|it| it.take().unwrap()).collect();
        for _ in 0..2 {
            assert!(slots.iter().all(|it| it.take().is_none()));
        }
        drop(taken);
        assert!(slots.iter().all(|it| it.take().is_some()));
    }
}
