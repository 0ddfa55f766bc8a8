//! Several threads look up in one map.
//!
//! ```sh
//! cargo run --example shared
//! ```
//!
//! A map is a view of borrowed bytes, which is `Copy`, `Send` and `Sync`. So scoped threads share
//! it without a lock and without `Arc`. The example `dictionary` has threads that are not scoped.

use std::thread;

use hodkhaki::{Builder, Error};

const THREADS: u32 = 4;
const KEYS: u32 = 100_000;

fn main() -> Result<(), Error> {
    let squares: Builder<u32, u64> = (0..KEYS).map(|n| (n, u64::from(n).pow(2))).collect();
    let built = squares.build()?;
    let map = built.as_map();

    // Each thread looks up the keys with one remainder, of twice as many as there are.
    let sums = thread::scope(|scope| {
        let threads: Vec<_> = (0..THREADS)
            .map(|first| {
                scope.spawn(move || {
                    (first..2 * KEYS)
                        .step_by(THREADS as usize)
                        .filter_map(|key| map.get(&key))
                        .sum::<u64>()
                })
            })
            .collect();
        threads
            .into_iter()
            .map(|thread| thread.join().expect("a thread doesn't panic"))
            .collect::<Vec<_>>()
    });

    for (first, sum) in sums.iter().enumerate() {
        println!("thread {first}: {sum}");
    }
    assert_eq!(sums.iter().sum::<u64>(), map.values().sum());
    println!("together: {}", sums.iter().sum::<u64>());
    Ok(())
}
