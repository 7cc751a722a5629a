//! The interner of threads against plain maps, by one thread and by many.

use elsa_proved::{Fault, SharedInterner, Symbol};
use std::collections::HashMap;
use std::process::Command;

fn is_shared<T: Send + Sync + Clone + 'static>() {}

#[test]
fn threads_cannot_share_it() {
    is_shared::<SharedInterner>();
}

/// The texts, in an order of the thread's own, if the count is a prime number.
fn order(thread: usize, count: usize) -> impl Iterator<Item = usize> {
    (0..count).map(move |at| (at * (2 * thread + 1) * 11 + thread * 1000) % count)
}

/// Threads intern the same texts, and each symbol is compared with those of the other threads.
fn compare(threads: usize, count: usize) {
    let names = SharedInterner::new();
    let found: Vec<Vec<Option<Symbol>>> = std::thread::scope(|scope| {
        let work = |thread: usize, names: SharedInterner| {
            move || {
                let mut found = vec![None; count];
                for it in order(thread, count) {
                    let text = it.to_string();
                    let symbol = names.get_or_intern(&text);
                    assert_eq!((names.get(&text), names.resolve(symbol)), (Some(symbol), Some(text.as_str())));
                    found[it] = Some(symbol);
                }
                found
            }
        };
        let started: Vec<_> = (0..threads).map(|it| scope.spawn(work(it, names.clone()))).collect();
        started.into_iter().map(|it| it.join().unwrap()).collect()
    });
    assert!(found.iter().all(|it| *it == found[0]), "a text has two symbols");
    let mut indices: Vec<usize> = found[0].iter().map(|it| it.unwrap().index()).collect();
    indices.sort_unstable();
    assert!(indices.into_iter().eq(0..count), "the symbols are not the first {count}");
    assert_eq!(names.len(), count);
    for (symbol, text) in &names {
        assert_eq!(found[0][text.parse::<usize>().unwrap()], Some(symbol));
    }
}

#[test]
fn four_threads_get_different_symbols_of_one_text() {
    compare(4, 200_003);
}

#[test]
fn more_threads_than_handles_lose_a_text() {
    compare(80, 2_003);
}

#[test]
fn one_thread_differs_from_a_map() {
    let (names, mut map, mut list) = (SharedInterner::new(), HashMap::new(), Vec::new());
    let mut state = 88172645463325252u64;
    let mut below = |n: u64| {
        state ^= state << 13;
        state ^= state >> 7;
        state ^= state << 17;
        (state % n) as usize
    };
    for call in 0..20_000 {
        let len = if call % 2000 == 0 { below(100_000) } else { below(6) };
        let text: String = (0..len).map(|_| ['a', 'b', 'é', '語'][below(4)]).collect();
        if below(3) == 0 {
            assert_eq!(names.get(&text).map(|it| it.index()), map.get(&text).copied());
        } else {
            let next = list.len();
            let code = *map.entry(text.clone()).or_insert(next);
            if code == next {
                list.push(text.clone());
            }
            let symbol = names.clone().get_or_intern(&text);
            assert_eq!((symbol.index(), names.resolve(symbol)), (code, Some(text.as_str())));
        }
        assert_eq!(names.len(), list.len());
    }
    assert!(names.iter().map(|it| it.1).eq(list.iter().map(|it| it.as_str())));
}

#[test]
fn an_empty_text_or_a_symbol_of_another_interner_is_wrong() {
    let names = SharedInterner::new();
    assert!(names.is_empty() && names.get("").is_none() && names.iter().next().is_none());
    let empty = names.get_or_intern("");
    assert_eq!((names.resolve(empty), names.len(), format!("{names:?}")), (Some(""), 1, "[\"\"]".into()));
    assert_eq!(names.resolve(Symbol::from_index(1).unwrap()), None);
    assert_eq!(SharedInterner::from_iter(["a", "b", "a"]).iter().len(), 2);
}

#[test]
fn a_text_moves_or_ends_before_the_last_clone() {
    let names = SharedInterner::new();
    let first = names.get_or_intern("first");
    let other = names.clone();
    let at = names.resolve(first).unwrap().as_ptr();
    std::thread::spawn(move || (0..50_000).for_each(|it| assert!(names.get_or_intern(&it.to_string()).index() > 0))).join().unwrap();
    assert_eq!(other.resolve(first).map(|it| (it, it.as_ptr())), Some(("first", at)));
}

const LIMITED: &str = "ELSA_TEST_OF_MEMORY";

/// Bounds the address space of this process, by the call of C.
fn limit(bytes: u64) {
    extern "C" {
        fn setrlimit(resource: i32, limit: *const [u64; 2]) -> i32;
    }
    const RLIMIT_AS: i32 = 9;
    assert_eq!(unsafe { setrlimit(RLIMIT_AS, &[bytes, bytes]) }, 0);
}

#[test]
fn an_allocation_that_fails_is_no_fault() {
    if std::env::var_os(LIMITED).is_none() {
        let own = std::env::current_exe().unwrap();
        let done = Command::new(own).args(["--exact", "an_allocation_that_fails_is_no_fault"]).env(LIMITED, "1").output();
        let done = done.unwrap();
        assert!(done.status.success(), "{}", String::from_utf8_lossy(&done.stdout));
        return;
    }
    let names = SharedInterner::from_iter(["fig"]);
    let large = "x".repeat(400_000_000);
    let pages: u64 = std::fs::read_to_string("/proc/self/statm").unwrap().split(' ').next().unwrap().parse().unwrap();
    limit(pages * 4096 + 100_000_000);
    assert_eq!(names.try_get_or_intern(&large), Err(Fault::Memory));
    assert_eq!((names.len(), names.get(&large), names.get_or_intern("plum").index()), (1, None, 1));
}
