//! The calls against a plain model, on random texts, blocks that are no texts, and ends out of order.

use elsa_proved::{factorize, factorize_block, firsts, BlockError, Fault, Interner, Symbol};
use std::collections::HashMap;
use std::error::Error;

struct Random(u64);

impl Random {
    fn below(&mut self, n: usize) -> usize {
        self.0 ^= self.0 << 13;
        self.0 ^= self.0 >> 7;
        self.0 ^= self.0 << 17;
        (self.0 % n as u64) as usize
    }

    fn text(&mut self, longest: usize) -> String {
        let len = if self.below(50) == 0 { self.below(longest) } else { self.below(6) };
        (0..len).map(|_| ['a', 'b', 'é', '語'][self.below(4)]).collect()
    }
}

/// What a factorize call does, in plain Rust.
fn model(bytes: &[u8], ends: &[usize]) -> Result<Vec<Symbol>, BlockError> {
    let (mut seen, mut symbols, mut start) = (HashMap::new(), Vec::new(), 0);
    for &end in ends {
        let Some(piece) = bytes.get(start..end) else { return Err(BlockError { fault: Fault::EndsOutOfOrder, symbols }) };
        let Ok(text) = std::str::from_utf8(piece) else { return Err(BlockError { fault: Fault::NotUtf8, symbols }) };
        let next = Symbol::from_index(seen.len()).unwrap();
        symbols.push(*seen.entry(text).or_insert(next));
        start = end;
    }
    Ok(symbols)
}

fn indices(symbols: &[Symbol]) -> Vec<usize> {
    symbols.iter().map(|it| it.index()).collect()
}

#[test]
fn an_interner_differs_from_a_map() {
    let mut random = Random(88172645463325252);
    let (mut names, mut map, mut list) = (Interner::new(), HashMap::new(), Vec::new());
    for call in 0..10_000 {
        let text = random.text(if call % 1000 == 0 { 100_000 } else { 300 });
        match random.below(3) {
            0 => assert_eq!(names.get(&text).map(|it| it.index()), map.get(&text).copied()),
            _ => {
                let next = list.len();
                let code = *map.entry(text.clone()).or_insert(next);
                if code == next {
                    list.push(text.clone());
                }
                let symbol = names.get_or_intern(&text);
                assert_eq!(symbol.index(), code);
                assert_eq!(names.resolve(symbol), Some(text.as_str()));
            }
        }
        assert_eq!(names.len(), list.len());
    }
    assert!(names.iter().map(|it| it.1).eq(list.iter().map(|it| it.as_str())));
}

#[test]
fn factorize_differs_from_a_map_on_hostile_blocks() {
    let mut random = Random(88172645463325253);
    for _ in 0..10_000 {
        let mut bytes: Vec<u8> = (0..random.below(40)).flat_map(|_| random.text(20).into_bytes()).collect();
        if random.below(3) == 0 && !bytes.is_empty() {
            let at = random.below(bytes.len());
            bytes[at] = random.below(256) as u8;
        }
        let mut ends: Vec<usize> = (0..random.below(30)).map(|_| random.below(bytes.len() + 2)).collect();
        if random.below(4) != 0 {
            ends.sort();
        }
        let symbols = factorize_block(&bytes, &ends);
        assert_eq!(symbols, model(&bytes, &ends));
        assert_eq!(Interner::new().intern_block(&bytes, &ends), symbols);
        if let Ok(symbols) = symbols {
            let (first, codes) = (firsts(&symbols), indices(&symbols));
            assert!((0..first.len()).all(|it| codes.iter().position(|code| *code == it) == Some(first[it])));
            assert_eq!(first.len(), codes.iter().max().map_or(0, |it| it + 1));
        }
    }
}

#[test]
fn a_text_moves_when_the_interner_grows() {
    let mut names = Interner::new();
    let first = names.get_or_intern("first");
    let at = names.resolve(first).unwrap().as_ptr();
    names.extend((0..10_000).map(|it| it.to_string()));
    assert_eq!(names.resolve(first).unwrap().as_ptr(), at);
}

#[test]
fn an_empty_text_or_interner_is_wrong() {
    let mut names = Interner::new();
    assert!(names.is_empty() && names.get("").is_none());
    assert_eq!(names.iter().next(), None);
    let empty = names.get_or_intern("");
    assert_eq!(names.resolve(empty), Some(""));
    assert_eq!(format!("{names:?}"), "[\"\"]");
}

#[test]
fn an_interner_is_lost_when_it_moves_to_a_thread() {
    let mut names = Interner::new();
    let pear = names.get_or_intern("pear");
    let moved = std::thread::spawn(move || {
        names.get_or_intern("fig");
        names
    });
    let names = moved.join().unwrap();
    assert_eq!((names.len(), names.resolve(pear)), (2, Some("pear")));
}

#[test]
fn a_list_differs_from_a_block() -> Result<(), Box<dyn Error>> {
    let texts: &[&str] = &["pear", "apple", "", "pear"];
    assert_eq!(indices(&factorize(texts)?), [0, 1, 2, 0]);
    assert_eq!(indices(&factorize(texts.iter().map(|it| it.to_string()))?), [0, 1, 2, 0]);
    assert_eq!(factorize(Vec::<String>::new())?, []);
    let mut names = Interner::from_iter(["fig"]);
    assert_eq!(indices(&names.intern_all(texts)?), [1, 2, 3, 1]);
    let copy = names.clone();
    names.get_or_intern("plum");
    assert_eq!((copy.len(), names.len(), copy.resolve(Symbol::from_index(1).unwrap())), (4, 5, Some("pear")));
    Ok(())
}

#[test]
fn an_error_has_no_cause_or_loses_the_symbols() {
    fn of(bytes: &[u8], ends: &[usize]) -> Result<Vec<Symbol>, Box<dyn Error>> {
        Ok(factorize_block(bytes, ends)?)
    }
    let error = of(b"ab\xff", &[1, 2, 3]).unwrap_err();
    assert_eq!(error.to_string(), "a text is not UTF-8, at text 2");
    assert_eq!(error.source().unwrap().to_string(), "a text is not UTF-8");
    let error = error.downcast::<BlockError>().unwrap();
    assert_eq!((error.fault, indices(&error.symbols)), (Fault::NotUtf8, vec![0, 1]));
}

#[test]
fn threads_that_read_one_interner_differ() {
    let names = Interner::from_iter((0..500).map(|it| it.to_string()));
    std::thread::scope(|scope| {
        for thread in 0..4 {
            let names = &names;
            scope.spawn(move || {
                for round in 0..20 {
                    for it in 0..500 {
                        let text = ((it + 31 * thread + round) % 500).to_string();
                        let symbol = names.get(&text).unwrap();
                        assert_eq!((symbol.index().to_string(), names.resolve(symbol)), (text.clone(), Some(text.as_str())));
                    }
                    assert_eq!((names.len(), names.get("x")), (500, None));
                }
            });
        }
    });
}
