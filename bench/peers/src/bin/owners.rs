//! Values that own memory, placed through `&self` and dropped together: upstream's `FrozenVec` of boxes (`upstream`) and the crate typed-arena
//! (`typed-arena`).
//!
//! usage: owners SIDE FORM 1 COUNT. `arena_alloc` places COUNT values, `arena_walk` walks over so many ten times in their order, and `arena_drop` drops
//! them. It prints the nanoseconds and a sum of what was read.
use elsa::FrozenVec;
use peers::words_of;
use std::time::Instant;
use typed_arena::Arena;

const WALKS: usize = 10;

/// A value that owns memory.
struct Owner {
    numbers: Vec<u64>,
}

impl Owner {
    #[inline(always)]
    fn new(number: u64) -> Owner {
        let mut numbers = Vec::with_capacity(2);
        numbers.push(number);
        Owner { numbers }
    }

    #[inline(always)]
    fn number(&self) -> u64 {
        self.numbers.first().copied().unwrap_or(0)
    }
}

trait Owners {
    fn place(&self, owner: Owner) -> &Owner;
    /// typed-arena walks by `&mut` alone.
    fn walk(&mut self) -> u64;
}

impl Owners for FrozenVec<Box<Owner>> {
    #[inline(always)]
    fn place(&self, owner: Owner) -> &Owner {
        self.push_get(Box::new(owner))
    }

    fn walk(&mut self) -> u64 {
        self.iter().fold(0, |sum, owner| sum.wrapping_add(owner.number()))
    }
}

impl Owners for Arena<Owner> {
    #[inline(always)]
    fn place(&self, owner: Owner) -> &Owner {
        self.alloc(owner)
    }

    fn walk(&mut self) -> u64 {
        self.iter_mut().fold(0, |sum, owner| sum.wrapping_add(owner.number()))
    }
}

fn run(mut owners: impl Owners, form: &str, count: usize) -> (u128, u64) {
    let mut start = Instant::now();
    let mut sum = (0..count as u64).fold(0u64, |sum, number| sum.wrapping_add(owners.place(Owner::new(number)).number()));
    match form {
        "arena_alloc" => (start.elapsed().as_nanos(), sum),
        "arena_walk" => {
            start = Instant::now();
            sum = (0..WALKS).fold(0u64, |sum, _| sum.wrapping_add(owners.walk()));
            (start.elapsed().as_nanos(), sum)
        }
        "arena_drop" => {
            start = Instant::now();
            drop(owners);
            (start.elapsed().as_nanos(), sum)
        }
        _ => panic!("a form as at the head of this file"),
    }
}

fn main() {
    let mut words = std::env::args().skip(1);
    let side = words.next().expect("a side");
    let (form, _, count) = words_of(words);
    let (nanos, sum) = match side.as_str() {
        "upstream" => run(FrozenVec::new(), &form, count),
        "typed-arena" => run(Arena::new(), &form, count),
        _ => panic!("a side as at the head of this file"),
    };
    println!("{nanos} {sum}");
}
