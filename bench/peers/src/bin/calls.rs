//! The collections of one thread: upstream's (`upstream`), and what an expert takes instead (`best`): a bump arena, and beside it a `Vec`, hashbrown's
//! map, std's ordered map, or `indexmap`, the hashed ones with the same hash as ours. `upstream_folded` is upstream's `FrozenMap` with that hash.
//!
//! usage: calls SIDE FORM TURNS COUNT. A form is a collection and a call, as `map_text_insert`; `main` at the end of this file has them all. It prints the
//! nanoseconds of COUNT calls (of `walk`, `clone` and `collect`: ten times over COUNT items; of `longest`: of the longest of COUNT insertions) and a sum
//! of what was read. TURNS times are done: `fill` (make the collection, fill it, drop it), `present` and `absent` (COUNT look-ups), `walks` and `copies`.
//! `numbers_fill` is of an arena of plain numbers: `best` is the bump arena, and `typed-arena` the crate of that name. `lines_default` and `lines_seeded` are insertions of the first COUNT lines of standard input, `put ` before each of them left out:
//! `best` takes the fixed hash for the former, and that of std, which has a secret, for the latter.
use bumpalo::Bump;
use elsa::{FrozenBTreeMap, FrozenIndexMap, FrozenMap, FrozenVec};
use hashbrown::hash_map::RawEntryMut;
use peers::{key, text, Draws, Fold};
use std::collections::hash_map::RandomState;
use std::collections::BTreeMap;
use std::hash::BuildHasher;
use std::hint::black_box;
use std::io::BufRead;
use std::time::Instant;

const TIMES: usize = 10;

type Answer = (u128, u64);

fn timed(work: impl FnOnce() -> u64) -> Answer {
    let start = Instant::now();
    let sum = work();
    (start.elapsed().as_nanos(), sum)
}

trait Items {
    fn push(&mut self, item: u64);
    fn get(&self, place: usize) -> Option<u64>;
    fn walk(&self) -> u64;
    fn copy(&self) -> u64;
}

impl Items for FrozenVec<Box<u64>> {
    fn push(&mut self, item: u64) {
        FrozenVec::push(self, Box::new(item));
    }

    #[inline(always)]
    fn get(&self, place: usize) -> Option<u64> {
        FrozenVec::get(self, place).copied()
    }

    fn walk(&self) -> u64 {
        self.iter().fold(0, |sum, item| sum.wrapping_add(*item))
    }

    fn copy(&self) -> u64 {
        black_box(self.clone()).len() as u64
    }
}

struct BestItems<'a> {
    arena: &'a Bump,
    items: Vec<&'a u64>,
}

impl Items for BestItems<'_> {
    fn push(&mut self, item: u64) {
        self.items.push(self.arena.alloc(item));
    }

    #[inline(always)]
    fn get(&self, place: usize) -> Option<u64> {
        self.items.get(place).map(|item| **item)
    }

    fn walk(&self) -> u64 {
        self.items.iter().fold(0, |sum, item| sum.wrapping_add(**item))
    }

    fn copy(&self) -> u64 {
        black_box(self.items.clone()).len() as u64
    }
}

fn fill(items: &mut impl Items, count: usize) -> u64 {
    (0..count as u64).for_each(|item| items.push(item));
    items.get(count - 1).unwrap_or(0)
}

fn vec_calls(mut items: impl Items, call: &str, turns: usize, count: usize) -> Answer {
    if call == "push" {
        return timed(|| fill(&mut items, count));
    }
    fill(&mut items, count);
    match call {
        "get" => timed(|| {
            let mut draws = Draws(1);
            (0..count).fold(0, |sum: u64, _| sum.wrapping_add(items.get(draws.below(count)).unwrap_or(0)))
        }),
        "walk" => timed(|| (0..TIMES).fold(0, |sum: u64, _| sum.wrapping_add(items.walk()))),
        "walks" => timed(|| (0..turns).fold(0, |sum: u64, _| sum.wrapping_add(black_box(&items).walk()))),
        "clone" => timed(|| (0..TIMES).fold(0, |sum, _| sum + items.copy())),
        _ => panic!("no such call"),
    }
}

/// The sum of some turns.
fn turned(turns: usize, turn: impl FnMut(usize) -> u64) -> u64 {
    (0..turns).map(turn).fold(0, u64::wrapping_add)
}

/// Makes a list, fills it and drops it.
fn vec_fills(side: &str, turns: usize, count: usize) -> Answer {
    timed(|| {
        turned(turns, |_| {
            if side == "upstream" {
                return fill(&mut FrozenVec::<Box<u64>>::new(), count);
            }
            let arena = Bump::new();
            let last = fill(&mut BestItems { arena: &arena, items: Vec::new() }, count);
            last
        })
    })
}

/// Makes an arena of numbers, fills it and drops it.
fn numbers_fills(side: &str, turns: usize, count: usize) -> Answer {
    timed(|| {
        turned(turns, |_| match side {
            "upstream" => {
                let arena = FrozenVec::<Box<u64>>::new();
                (0..count as u64).fold(0u64, |sum, number| sum.wrapping_add(*arena.push_get(Box::new(number))))
            }
            "typed-arena" => {
                let arena = typed_arena::Arena::<u64>::new();
                (0..count as u64).fold(0u64, |sum, number| sum.wrapping_add(*black_box(arena.alloc(number))))
            }
            _ => {
                let arena = Bump::new();
                (0..count as u64).fold(0u64, |sum, number| sum.wrapping_add(*black_box(arena.alloc(number))))
            }
        })
    })
}

fn vec_collect(side: &str, count: usize) -> Answer {
    timed(|| {
        (0..TIMES).fold(0, |sum, _| {
            sum + if side == "upstream" {
                black_box((0..count as u64).map(Box::new).collect::<FrozenVec<Box<u64>>>()).len() as u64
            } else {
                let arena = Bump::new();
                let items: Vec<&u64> = (0..count as u64).map(|item| &*arena.alloc(item)).collect();
                black_box(items).len() as u64
            }
        })
    })
}

trait Table {
    type Key: ?Sized;
    fn insert(&mut self, key: &Self::Key, value: u64) -> u64;
    fn get(&self, key: &Self::Key) -> Option<u64>;
    fn copy(&self) -> u64;
    /// The sum of all values, of a map that is walked.
    fn walk(&self) -> u64 {
        panic!("it can't be walked by &self")
    }
    /// The value of the entry at a place, of a map that keeps an order.
    fn at(&self, _place: usize) -> Option<u64> {
        None
    }
}

macro_rules! upstream_table {
    ($table:ty, $key:ty, |$asked:ident| $owned:expr, $length:expr $(, $at:item)?) => {
        impl Table for $table {
            type Key = $key;

            #[inline(always)]
            fn insert(&mut self, $asked: &$key, value: u64) -> u64 {
                *<$table>::insert(self, $owned, Box::new(value))
            }

            #[inline(always)]
            fn get(&self, key: &$key) -> Option<u64> {
                <$table>::get(self, key).copied()
            }

            fn copy(&self) -> u64 {
                let length: fn(&$table) -> usize = $length;
                length(&black_box(self.clone())) as u64
            }

            $($at)?
        }
    };
}

upstream_table!(FrozenMap<u64, Box<u64>>, u64, |key| *key, |map| map.len());
upstream_table!(FrozenMap<String, Box<u64>>, str, |key| key.to_owned(), |map| map.len());
// Upstream's map tells its length only with the hash of std.
upstream_table!(FrozenMap<u64, Box<u64>, Fold>, u64, |key| *key, |_map| panic!("it has no length"));
upstream_table!(FrozenMap<String, Box<u64>, Fold>, str, |key| key.to_owned(), |_map| panic!("it has no length"));
upstream_table!(FrozenBTreeMap<u64, Box<u64>>, u64, |key| *key, |map| map.len());
upstream_table!(FrozenBTreeMap<String, Box<u64>>, str, |key| key.to_owned(), |map| map.len());
// Upstream's index map tells no place for keys that are plain numbers.
upstream_table!(FrozenIndexMap<Box<u64>, Box<u64>>, u64, |key| Box::new(*key), |map| usize::from(!map.is_empty()), #[inline(always)] fn at(&self, place: usize) -> Option<u64> { self.get_index(place).map(|entry| *entry.1) });
upstream_table!(FrozenIndexMap<String, Box<u64>>, str, |key| key.to_owned(), |map| usize::from(!map.is_empty()), #[inline(always)] fn at(&self, place: usize) -> Option<u64> { self.get_index(place).map(|entry| *entry.1) });

/// A map beside an arena, which has the values and the texts.
struct Best<'a, M> {
    arena: &'a Bump,
    map: M,
}

impl<'a> Table for Best<'a, hashbrown::HashMap<u64, &'a u64, Fold>> {
    type Key = u64;

    #[inline(always)]
    fn insert(&mut self, key: &u64, value: u64) -> u64 {
        let arena = self.arena;
        **self.map.entry(*key).or_insert_with(|| arena.alloc(value))
    }

    #[inline(always)]
    fn get(&self, key: &u64) -> Option<u64> {
        self.map.get(key).map(|value| **value)
    }

    fn copy(&self) -> u64 {
        black_box(self.map.clone()).len() as u64
    }

    fn walk(&self) -> u64 {
        self.map.values().fold(0, |sum, value| sum.wrapping_add(**value))
    }
}

impl<'a, S: BuildHasher + Clone> Table for Best<'a, hashbrown::HashMap<&'a str, &'a u64, S>> {
    type Key = str;

    #[inline(always)]
    fn insert(&mut self, key: &str, value: u64) -> u64 {
        let hash = self.map.hasher().hash_one(key);
        match self.map.raw_entry_mut().from_hash(hash, |kept| *kept == key) {
            RawEntryMut::Occupied(entry) => **entry.get(),
            RawEntryMut::Vacant(entry) => {
                let kept: &'a str = self.arena.alloc_str(key);
                **entry.insert_hashed_nocheck(hash, kept, self.arena.alloc(value)).1
            }
        }
    }

    #[inline(always)]
    fn get(&self, key: &str) -> Option<u64> {
        let hash = self.map.hasher().hash_one(key);
        self.map.raw_entry().from_hash(hash, |kept| *kept == key).map(|(_, value)| **value)
    }

    fn copy(&self) -> u64 {
        black_box(self.map.clone()).len() as u64
    }
}

impl<'a> Table for Best<'a, BTreeMap<u64, &'a u64>> {
    type Key = u64;

    #[inline(always)]
    fn insert(&mut self, key: &u64, value: u64) -> u64 {
        let arena = self.arena;
        **self.map.entry(*key).or_insert_with(|| arena.alloc(value))
    }

    #[inline(always)]
    fn get(&self, key: &u64) -> Option<u64> {
        self.map.get(key).map(|value| **value)
    }

    fn copy(&self) -> u64 {
        black_box(self.map.clone()).len() as u64
    }

    fn walk(&self) -> u64 {
        self.map.values().fold(0, |sum, value| sum.wrapping_add(**value))
    }
}

impl<'a> Table for Best<'a, BTreeMap<&'a str, &'a u64>> {
    type Key = str;

    #[inline(always)]
    fn insert(&mut self, key: &str, value: u64) -> u64 {
        if let Some(kept) = self.map.get(key) {
            return **kept;
        }
        let kept: &'a u64 = self.arena.alloc(value);
        self.map.insert(self.arena.alloc_str(key), kept);
        *kept
    }

    #[inline(always)]
    fn get(&self, key: &str) -> Option<u64> {
        self.map.get(key).map(|value| **value)
    }

    fn copy(&self) -> u64 {
        black_box(self.map.clone()).len() as u64
    }
}

impl<'a> Table for Best<'a, indexmap::IndexMap<u64, &'a u64, Fold>> {
    type Key = u64;

    #[inline(always)]
    fn insert(&mut self, key: &u64, value: u64) -> u64 {
        let arena = self.arena;
        **self.map.entry(*key).or_insert_with(|| arena.alloc(value))
    }

    #[inline(always)]
    fn get(&self, key: &u64) -> Option<u64> {
        self.map.get(key).map(|value| **value)
    }

    fn copy(&self) -> u64 {
        black_box(self.map.clone()).len() as u64
    }

    fn walk(&self) -> u64 {
        self.map.values().fold(0, |sum, value| sum.wrapping_add(**value))
    }

    #[inline(always)]
    fn at(&self, place: usize) -> Option<u64> {
        self.map.get_index(place).map(|entry| **entry.1)
    }
}

impl<'a> Table for Best<'a, indexmap::IndexMap<&'a str, &'a u64, Fold>> {
    type Key = str;

    #[inline(always)]
    fn insert(&mut self, key: &str, value: u64) -> u64 {
        if let Some(kept) = self.map.get(key) {
            return **kept;
        }
        let kept: &'a u64 = self.arena.alloc(value);
        self.map.insert(self.arena.alloc_str(key), kept);
        *kept
    }

    #[inline(always)]
    fn get(&self, key: &str) -> Option<u64> {
        self.map.get(key).map(|value| **value)
    }

    fn copy(&self) -> u64 {
        black_box(self.map.clone()).len() as u64
    }

    #[inline(always)]
    fn at(&self, place: usize) -> Option<u64> {
        self.map.get_index(place).map(|entry| **entry.1)
    }
}

/// The key of each place.
trait Keys<K: ?Sized> {
    fn with<R>(&self, place: usize, call: impl FnOnce(&K) -> R) -> R;
}

struct Numbers;

impl Keys<u64> for Numbers {
    #[inline(always)]
    fn with<R>(&self, place: usize, call: impl FnOnce(&u64) -> R) -> R {
        call(&key(place))
    }
}

impl Keys<str> for Vec<String> {
    #[inline(always)]
    fn with<R>(&self, place: usize, call: impl FnOnce(&str) -> R) -> R {
        call(&self[place])
    }
}

fn filled<T: Table>(table: &mut T, count: usize, keys: &impl Keys<T::Key>) -> u64 {
    turned(count, |place| keys.with(place, |key| table.insert(key, place as u64)))
}

fn table_calls<T: Table>(mut table: T, call: &str, turns: usize, count: usize, keys: &impl Keys<T::Key>) -> Answer {
    if call == "longest" {
        let mut most = 0;
        let mut sum = 0u64;
        for place in 0..count {
            let start = Instant::now();
            sum = sum.wrapping_add(keys.with(place, |key| table.insert(key, place as u64)));
            most = most.max(start.elapsed().as_nanos());
        }
        return (most, sum);
    }
    if call == "insert" {
        return timed(|| filled(&mut table, count, keys));
    }
    filled(&mut table, count, keys);
    let draws = &mut Draws(1);
    let mut sought = |first: usize, absent: u64| keys.with(first + draws.below(count), |key| table.get(key)).unwrap_or(absent);
    match call {
        "get" => timed(|| turned(count, |_| sought(0, 0))),
        "present" => timed(|| turned(turns * count, |_| sought(0, 1))),
        "absent" => timed(|| turned(turns * count, |_| sought(count, 1))),
        "at" => timed(|| turned(count, |_| table.at(draws.below(count)).unwrap_or(0))),
        "clone" => timed(|| turned(TIMES, |_| table.copy())),
        "copies" => timed(|| turned(turns, |_| table.copy())),
        "walks" => timed(|| turned(turns, |_| black_box(&table).walk())),
        _ => panic!("no such call"),
    }
}

fn map_collect(side: &str, count: usize) -> Answer {
    let pairs = |place: usize| (key(place), place as u64);
    timed(|| {
        (0..TIMES).fold(0, |sum, _| {
            sum + if side == "upstream" {
                black_box((0..count).map(pairs).map(|(key, value)| (key, Box::new(value))).collect::<FrozenMap<u64, Box<u64>>>()).len() as u64
            } else {
                let arena = Bump::new();
                let map: hashbrown::HashMap<u64, &u64, Fold> = (0..count).map(pairs).map(|(key, value)| (key, &*arena.alloc(value))).collect();
                let length = black_box(map).len() as u64;
                length
            }
        })
    })
}

/// The first lines of standard input, `put ` before each of them left out.
fn lines(count: usize) -> Vec<String> {
    let lines = std::io::stdin().lock().lines().take(count).map(|line| line.expect("a line"));
    lines.map(|line| line.strip_prefix("put ").unwrap_or(&line).to_owned()).collect()
}

fn main() {
    let mut words = std::env::args().skip(1);
    let side = words.next().expect("upstream, upstream_folded, best or typed-arena");
    let (form, turns, count) = peers::words_of(words);
    let best = side == "best";
    let (collection, call) = form.rsplit_once('_').expect("a form");
    let texts: Vec<String> = match collection {
        "lines" => lines(count),
        _ if collection.ends_with("text") => (0..if call == "absent" { 2 * count } else { count }).map(text).collect(),
        _ => Vec::new(),
    };
    let (number, text) = (&Numbers, &texts);
    let folded = side == "upstream_folded";
    // One call of a map over an arena, or its `fill`, which makes both anew each time.
    macro_rules! map_calls {
        (|$arena:ident| $table:expr, $keys:expr) => {{
            let turn = |call: &str| {
                let $arena = &Bump::new();
                let (mut table, keys) = ($table, $keys);
                if call == "fill" {
                    return (0, filled(&mut table, count, keys));
                }
                table_calls(table, call, turns, count, keys)
            };
            if call == "fill" {
                timed(|| turned(turns, |_| turn(call).1))
            } else {
                turn(call)
            }
        }};
    }
    let (nanos, sum) = match (collection, call, best) {
        ("vec", "collect", _) => vec_collect(&side, count),
        ("map", "collect", _) => map_collect(&side, count),
        ("vec", "fill", _) => vec_fills(&side, turns, count),
        ("numbers", "fill", _) => numbers_fills(&side, turns, count),
        ("vec", _, false) => vec_calls(FrozenVec::<Box<u64>>::new(), call, turns, count),
        ("vec", _, true) => vec_calls(BestItems { arena: &Bump::new(), items: Vec::new() }, call, turns, count),
        ("map", _, false) if folded => map_calls!(|_arena| FrozenMap::<u64, Box<u64>, Fold>::default(), number),
        ("map", _, false) => map_calls!(|_arena| FrozenMap::<u64, Box<u64>>::new(), number),
        ("map", _, true) => map_calls!(|arena| Best { arena, map: hashbrown::HashMap::<u64, &u64, Fold>::default() }, number),
        ("map_text", _, false) if folded => map_calls!(|_arena| FrozenMap::<String, Box<u64>, Fold>::default(), text),
        ("map_text", _, false) => map_calls!(|_arena| FrozenMap::<String, Box<u64>>::new(), text),
        ("map_text", _, true) => map_calls!(|arena| Best { arena, map: hashbrown::HashMap::<&str, &u64, Fold>::default() }, text),
        ("lines", _, false) => table_calls(FrozenMap::<String, Box<u64>>::new(), "insert", 1, texts.len(), text),
        ("lines", "default", true) => table_calls(Best { arena: &Bump::new(), map: hashbrown::HashMap::<&str, &u64, Fold>::default() }, "insert", 1, texts.len(), text),
        ("lines", _, true) => table_calls(Best { arena: &Bump::new(), map: hashbrown::HashMap::<&str, &u64, RandomState>::default() }, "insert", 1, texts.len(), text),
        ("tree", _, false) => map_calls!(|_arena| FrozenBTreeMap::<u64, Box<u64>>::new(), number),
        ("tree", _, true) => map_calls!(|arena| Best { arena, map: BTreeMap::<u64, &u64>::new() }, number),
        ("tree_text", _, false) => map_calls!(|_arena| FrozenBTreeMap::<String, Box<u64>>::new(), text),
        ("tree_text", _, true) => map_calls!(|arena| Best { arena, map: BTreeMap::<&str, &u64>::new() }, text),
        ("index_map", _, false) => map_calls!(|_arena| FrozenIndexMap::<Box<u64>, Box<u64>>::new(), number),
        ("index_map", _, true) => map_calls!(|arena| Best { arena, map: indexmap::IndexMap::<u64, &u64, Fold>::default() }, number),
        ("index_map_text", _, false) => map_calls!(|_arena| FrozenIndexMap::<String, Box<u64>>::new(), text),
        ("index_map_text", _, true) => map_calls!(|arena| Best { arena, map: indexmap::IndexMap::<&str, &u64, Fold>::default() }, text),
        _ => panic!("no such form"),
    };
    println!("{nanos} {sum}");
}
