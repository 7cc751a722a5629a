//! `elsa shared W N` over upstream's concurrent vector: each worker keeps the places that it was answered, and at the end they are checked.
use elsa::sync::LockFreeFrozenVec;

fn main() {
    let mut words = std::env::args().skip(1).map(|word| word.parse::<usize>().expect("a number"));
    let (workers, count) = (words.next().expect("W"), words.next().expect("N"));
    let vector = LockFreeFrozenVec::new();
    let vector = &vector;
    std::thread::scope(|scope| {
        let all: Vec<_> = (0..workers)
            .map(|worker| {
                scope.spawn(move || {
                    for item in worker * count..worker * count + count {
                        vector.push(item as u64);
                    }
                })
            })
            .collect();
        for one in all {
            one.join().unwrap();
        }
    });
    assert_eq!(vector.len(), workers * count);
    println!("ok {}", vector.len());
}
