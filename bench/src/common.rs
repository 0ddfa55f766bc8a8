//! The numbers of entries, the keys, the times and the arguments of both programs.

use crate::clock::now;
use crate::random::XorShift32;
use std::hint::black_box;
use std::time::Duration;

/// The number that a lookup adds for a key that isn't found.
pub const MISS: u64 = 1 << 32;

/// The least number of keys for each measured time.
pub const KEYS_A_VALUE: usize = 1_000_000;

// The numbers of entries, each with a number of rounds.

pub const COUNTS: &[(usize, usize)] = &[(1_000, 31), (100_000, 31), (1_000_000, 15)];

pub const SIZES: &[(usize, usize)] = &[
    (100, 15),
    (1_000, 15),
    (10_000, 15),
    (100_000, 15),
    (1_000_000, 7),
    (10_000_000, 3),
];

/// Returns whether each word is an argument of the program. Exits with status 2 if an argument is
/// none of the words.
pub fn flags<const N: usize>(words: [&str; N]) -> [bool; N] {
    let arguments: Vec<String> = std::env::args().skip(1).collect();
    for argument in &arguments {
        if !words.contains(&argument.as_str()) {
            eprintln!("unknown argument: {argument}");
            std::process::exit(2);
        }
    }
    words.map(|word| arguments.iter().any(|argument| argument == word))
}

/// Returns the mean time of several calls in a row, and the result of the last one. Each call is
/// timed by itself. Its result is dropped outside of that time, before the next call begins.
pub fn time_each<T>(times: usize, mut call: impl FnMut() -> T) -> (Duration, T) {
    let mut taken = Duration::ZERO;
    let mut last = None;
    for _ in 0..times {
        drop(last.take());
        let begin = now();
        let result = black_box(call());
        taken += now() - begin;
        last = Some(result);
    }
    (taken / times as u32, last.unwrap())
}

pub fn median(mut times: Vec<Duration>) -> f64 {
    times.sort();
    times[times.len() / 2].as_nanos() as f64
}

pub fn sum(terms: impl Iterator<Item = u64>) -> u64 {
    terms.fold(0, u64::wrapping_add)
}

pub fn numbers(random: &mut XorShift32, count: usize) -> Vec<u32> {
    (0..count).map(|_| random.next()).collect()
}

/// Returns a text of 1 to 25 bytes: a number's digits, and up to 15 more bytes, by the number.
pub fn text_of(number: u32) -> String {
    format!("{number}{}", &"/path/of/a/file"[..number as usize % 16])
}
