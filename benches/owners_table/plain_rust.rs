// The same loop over the atomics of Rust's std.
use std::sync::atomic::{AtomicU64, Ordering};
use std::thread;
use std::time::Instant;

const ROUNDS: u32 = 3_000_000;

fn plain_pairs(words: &[AtomicU64], slot: usize) {
    for _ in 0..ROUNDS {
        if words[slot].compare_exchange(0, 24578, Ordering::SeqCst, Ordering::SeqCst).is_ok() {
            words[slot].swap(0, Ordering::SeqCst);
        }
    }
}

fn main() {
    let words: Vec<AtomicU64> = (0..256).map(|_| AtomicU64::new(0)).collect();
    for _ in 0..3 {
        for threads in [1, 2, 4] {
            for apart in [64, 0] {
                let start = Instant::now();
                thread::scope(|s| {
                    for i in 0..threads {
                        let words = &words;
                        s.spawn(move || plain_pairs(words, i * apart));
                    }
                });
                let nanos = start.elapsed().as_nanos() / ROUNDS as u128;
                match (threads, apart) {
                    (1, _) => println!("1 thread|Rust's std, ns|{nanos}"),
                    (_, 0) => println!("{threads} threads, one slot|Rust's std, ns|{nanos}"),
                    _ => println!("{threads} threads, own slots|Rust's std, ns|{nanos}"),
                }
            }
        }
    }
}
