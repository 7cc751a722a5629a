//! `elsa intern` over upstream's `FrozenIndexSet`: it looks first, and makes a `String` for a new name alone.
//!
//! usage: names_upstream [seeded] < LINES > ANSWERS        (seeded: with the hash of `elsa intern`, not with that of std)
use elsa::FrozenIndexSet;
use peers::{answer_lines, Names, Seeded};
use std::hash::BuildHasher;

struct Upstream<S> {
    set: FrozenIndexSet<String, S>,
    count: usize,
}

impl<S: BuildHasher> Names for Upstream<S> {
    fn put(&mut self, name: &str) -> usize {
        if let Some(place) = self.set.get_index_of(name) {
            return place;
        }
        let place = self.set.insert_full(name.to_owned()).0;
        self.count = place + 1;
        place
    }

    fn find(&self, name: &str) -> Option<usize> {
        self.set.get_index_of(name)
    }

    fn at(&self, number: usize) -> Option<&str> {
        self.set.get_index(number)
    }

    fn len(&self) -> usize {
        self.count
    }
}

fn main() -> std::io::Result<()> {
    match std::env::args().nth(1).as_deref() {
        None => answer_lines(&mut Upstream { set: FrozenIndexSet::new(), count: 0 }),
        Some("seeded") => answer_lines(&mut Upstream { set: FrozenIndexSet::<String, Seeded>::default(), count: 0 }),
        Some(_) => panic!("usage: names_upstream [seeded]"),
    }
}
