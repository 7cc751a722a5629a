//! Compares the interner with `HashMap<String, usize>` of std, and with a hand-written interner over std, on a million
//! texts by Zipf's law.
//!
//! usage: cargo run --release --example zipf [TEXTS [DISTINCT]]

use elsa_proved::{factorize, factorize_block, Interner, Symbol};
use std::collections::HashMap;
use std::fs;

/// The texts by Zipf's law: the text of rank r comes with a frequency of 1 / r.
fn texts(count: usize, distinct: usize) -> Vec<String> {
    let mut sums = Vec::with_capacity(distinct);
    let mut sum = 0.0;
    for rank in 1..=distinct {
        sum += 1.0 / rank as f64;
        sums.push(sum);
    }
    let mut state = 88172645463325252u64;
    (0..count)
        .map(|_| {
            state ^= state << 13;
            state ^= state >> 7;
            state ^= state << 17;
            let wanted = (state >> 11) as f64 / (1u64 << 53) as f64 * sum;
            let rank = sums.partition_point(|it| *it < wanted);
            format!("name_{:x}", (rank as u64).wrapping_mul(0x9E37_79B9_7F4A_7C15) >> 34)
        })
        .collect()
}

/// An interner as one writes it over std: a map of borrowed texts to numbers, and blocks that have the bytes of the texts.
#[derive(Default)]
struct HandWritten {
    numbers: HashMap<&'static str, u32>,
    texts: Vec<&'static str>,
    block: &'static mut [u8],
}

impl HandWritten {
    fn get_or_intern(&mut self, text: &str) -> u32 {
        if let Some(number) = self.numbers.get(text) {
            return *number;
        }
        if self.block.len() < text.len() {
            self.block = Vec::leak(vec![0; text.len().max(1 << 16)]);
        }
        let (own, rest) = std::mem::take(&mut self.block).split_at_mut(text.len());
        self.block = rest;
        own.copy_from_slice(text.as_bytes());
        let own = std::str::from_utf8(own).expect("a copy of a text");
        let number = self.texts.len() as u32;
        self.numbers.insert(own, number);
        self.texts.push(own);
        number
    }
}

/// The processor milliseconds of this process until now, by Linux: other work on the machine disturbs them less.
fn processor_time() -> f64 {
    let text = fs::read_to_string("/proc/self/schedstat").expect("Linux has /proc/self/schedstat");
    text.split(' ').next().and_then(|it| it.parse::<f64>().ok()).expect("its first word is a number") / 1e6
}

/// The least processor milliseconds of seven runs, and what the last returned.
fn least<T>(mut call: impl FnMut() -> T) -> (f64, T) {
    let mut best = f64::INFINITY;
    let mut made = None;
    for _ in 0..7 {
        let begun = processor_time();
        let it = call();
        best = best.min(processor_time() - begun);
        made = Some(it);
    }
    (best, made.unwrap())
}

fn main() {
    let mut given = std::env::args().skip(1).map(|it| it.parse().expect("a number"));
    let count = given.next().unwrap_or(1_000_000);
    let distinct = given.next().unwrap_or(50_000);
    let texts = texts(count, distinct);
    let block: Vec<u8> = texts.iter().flat_map(|it| it.bytes()).collect();
    let ends: Vec<usize> = texts.iter().scan(0, |sum, it| { *sum += it.len(); Some(*sum) }).collect();

    let (std_time, expected) = least(|| {
        let mut seen: HashMap<String, usize> = HashMap::new();
        texts
            .iter()
            .map(|text| match seen.get(text.as_str()) {
                Some(code) => *code,
                None => {
                    let next = seen.len();
                    seen.insert(text.clone(), next);
                    next
                }
            })
            .collect::<Vec<usize>>()
    });
    let (hand_time, hand) = least(|| {
        let mut names = HandWritten::default();
        texts.iter().map(|text| names.get_or_intern(text) as usize).collect::<Vec<usize>>()
    });
    let (one_time, one) = least(|| {
        let mut names = Interner::new();
        texts.iter().map(|text| names.get_or_intern(text).index()).collect::<Vec<usize>>()
    });
    let (list_time, list) = least(|| factorize(&texts).expect("texts"));
    let (block_time, in_block) = least(|| factorize_block(&block, &ends).expect("texts"));
    let same = |symbols: &[Symbol]| symbols.iter().map(|it| it.index()).eq(expected.iter().copied());
    assert!(hand == expected && one == expected && same(&list) && same(&in_block), "the codes differ");
    println!("{count} texts, {} distinct, {} bytes", expected.iter().max().map_or(0, |it| it + 1), block.len());
    println!("std HashMap<String, usize>  {std_time:8.1} ms");
    println!("hand-written over std       {hand_time:8.1} ms  {:.2}", hand_time / std_time);
    println!("Interner::get_or_intern     {one_time:8.1} ms  {:.2}", one_time / std_time);
    println!("factorize of a list         {list_time:8.1} ms  {:.2}", list_time / std_time);
    println!("factorize_block             {block_time:8.1} ms  {:.2}", block_time / std_time);
}
