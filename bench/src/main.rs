//! Measures the maps of the Rust crate `hodkhaki` beside std's `HashMap` and beside `limit`, and
//! prints a table in Markdown.
//!
//! With the argument `--keep-memory`, the program keeps freed memory. With `--sizes` it takes fewer
//! measures, of maps of 100 to 10,000,000 entries. With `--count SIDE CASE SIZE REPEATS` it only
//! calls one side, for `bench/instructions`.
//!
//! It first compares `limit` with the library, and stops if their results or archives differ.

mod archived;
mod check;
mod clock;
mod common;
mod count;
mod fx;
mod limit;
mod memory;
mod random;
mod std_maps;

use archived::{build, Archive, ListedKey, MapKind};
use common::{flags, median, numbers, sum, text_of, time_each, COUNTS, KEYS_A_VALUE, MISS, SIZES};
use fx::BuildFx;
use hodkhaki::HashKind;
use limit::Calls;
use random::{XorShift32, XorShift64};
use std::collections::HashMap;
use std::hash::{BuildHasher, Hash, RandomState};
use std::hint::black_box;
use std::time::Duration;
use std_maps::Owned;

#[derive(Clone, Copy, PartialEq, Eq)]
enum Measure {
    Build,
    // As `Build`, but std's map borrows its strings, and the archive owns them.
    BuildBorrowed,
    Open,
    Hits,
    Misses,
    Iterate,
}

const OF_NUMBERS: &[Measure] = &[
    Measure::Build,
    Measure::Open,
    Measure::Hits,
    Measure::Misses,
    Measure::Iterate,
];

const OF_TEXTS: &[Measure] = &[
    Measure::Build,
    Measure::BuildBorrowed,
    Measure::Open,
    Measure::Hits,
    Measure::Misses,
    Measure::Iterate,
];

impl Measure {
    fn name(self) -> &'static str {
        match self {
            Measure::Build => "build",
            Measure::BuildBorrowed => "build, std of `&str`",
            Measure::Open => "open",
            Measure::Hits => "lookup, found",
            Measure::Misses => "lookup, not found",
            Measure::Iterate => "iteration",
        }
    }
}

#[derive(Clone, Copy, PartialEq, Eq)]
enum Contestant {
    Crate,
    // Lookups by `get_many` of the crate.
    Many,
    Sip,
    Fx,
    Limit,
}

const CONTESTANTS: [Contestant; 5] = [
    Contestant::Crate,
    Contestant::Many,
    Contestant::Sip,
    Contestant::Fx,
    Contestant::Limit,
];

/// Keys and values of a map, the same keys in another order, and keys that it lacks.
struct Workload<'a, Q> {
    keys: &'a [Q],
    hits: &'a [Q],
    misses: &'a [Q],
    values: &'a [u32],
}

impl<'a, Q> Workload<'a, Q> {
    fn new([keys, hits, misses]: &'a [Vec<Q>; 3], values: &'a [u32]) -> Self {
        Workload {
            keys,
            hits,
            misses,
            values,
        }
    }
}

/// Times of a measure, and its result: a number of entries, or a sum.
type Taken = (Duration, u64);

fn measure_crate<Q: ListedKey, C: MapKind>(
    measure: Measure,
    times: usize,
    work: &Workload<'_, Q>,
    archive: &Archive<'_, Q, C>,
) -> Taken {
    match measure {
        Measure::Build | Measure::BuildBorrowed => {
            let call = || build::<Q, C>(black_box(work.keys), work.values);
            let (taken, built) = time_each(times, call);
            assert!(built == archive.bytes(), "another archive was built");
            (taken, work.values.len() as u64)
        }
        Measure::Open => time_each(times, || {
            Archive::<Q, C>::open(black_box(archive.bytes())).len() as u64
        }),
        Measure::Hits => time_each(times, || archive.get_each(black_box(work.hits))),
        Measure::Misses => time_each(times, || archive.get_each(black_box(work.misses))),
        Measure::Iterate => time_each(times, || black_box(archive).iterate()),
    }
}

fn measure_many<Q: ListedKey, C: MapKind>(
    measure: Measure,
    times: usize,
    work: &Workload<'_, Q>,
    archive: &Archive<'_, Q, C>,
) -> Taken {
    match measure {
        Measure::Hits => time_each(times, || archive.get_many(black_box(work.hits))),
        Measure::Misses => time_each(times, || archive.get_many(black_box(work.misses))),
        _ => unreachable!("it only looks up"),
    }
}

fn measure_std<Q: ListedKey + Eq + Hash, S: BuildHasher + Default>(
    measure: Measure,
    times: usize,
    work: &Workload<'_, Q>,
    map: &HashMap<Owned<Q>, u32, S>,
) -> Taken {
    let count = work.values.len() as u64;
    match measure {
        Measure::Build => {
            let call = || std_maps::build_owned::<Q, S>(black_box(work.keys), work.values);
            (time_each(times, call).0, count)
        }
        Measure::BuildBorrowed => {
            let keys = || black_box(work.keys).iter().copied();
            let call = || std_maps::build::<Q, S>(keys(), work.values);
            (time_each(times, call).0, count)
        }
        Measure::Open => unreachable!("it has no counterpart"),
        Measure::Hits => time_each(times, || std_maps::get_each(map, black_box(work.hits))),
        Measure::Misses => time_each(times, || std_maps::get_each(map, black_box(work.misses))),
        Measure::Iterate => time_each(times, || {
            sum(black_box(map).values().map(|value| u64::from(*value)))
        }),
    }
}

fn measure_limit<Q: ListedKey, C: MapKind>(
    measure: Measure,
    times: usize,
    work: &Workload<'_, Q>,
    archive: &Archive<'_, Q, C>,
    limit: &Calls<Q, C>,
) -> Taken {
    let look_up = |keys: &[Q]| {
        let lookup = limit.lookup.expect("it looks up");
        time_each(times, || lookup(black_box(keys), archive))
    };
    match measure {
        Measure::Build => {
            let build = limit.build.expect("it builds");
            let mut out = vec![0; archive.bytes().len()];
            let call = || build(black_box(work.keys), work.values, &mut out);
            let (taken, len) = time_each(times, call);
            assert!(out[..len] == *archive.bytes(), "another archive was built");
            (taken, work.values.len() as u64)
        }
        Measure::Hits => look_up(work.hits),
        Measure::Misses => look_up(work.misses),
        Measure::Iterate => {
            let iterate = limit.iterate.expect("it iterates");
            time_each(times, || iterate(black_box(archive)))
        }
        _ => unreachable!("it has no such call"),
    }
}

/// Returns whether a contestant takes a measure.
fn takes<Q: ListedKey, C>(contestant: Contestant, measure: Measure, limit: &Calls<Q, C>) -> bool {
    match (contestant, measure) {
        (Contestant::Crate, _) => true,
        (Contestant::Many, _) => matches!(measure, Measure::Hits | Measure::Misses),
        (Contestant::Sip | Contestant::Fx, _) => measure != Measure::Open,
        (Contestant::Limit, Measure::Build) => limit.build.is_some(),
        (Contestant::Limit, Measure::Hits | Measure::Misses) => limit.lookup.is_some(),
        (Contestant::Limit, Measure::Iterate) => limit.iterate.is_some(),
        (Contestant::Limit, _) => false,
    }
}

fn run<Q: ListedKey + Eq + Hash, C: MapKind>(
    kind: &str,
    measures: &[Measure],
    limit: &Calls<Q, C>,
    work: &Workload<'_, Q>,
    rounds: usize,
) {
    let count = work.values.len();
    let bytes = build::<Q, C>(work.keys, work.values);
    let archive = Archive::<Q, C>::open(&bytes);
    let sip: HashMap<_, u32, RandomState> = std_maps::build_owned(work.keys, work.values);
    let fx: HashMap<_, u32, BuildFx> = std_maps::build_owned(work.keys, work.values);

    let mut tasks: Vec<(Measure, Contestant)> = Vec::new();
    for measure in measures.iter().copied() {
        for contestant in CONTESTANTS {
            if takes(contestant, measure, limit) {
                tasks.push((measure, contestant));
            }
        }
    }
    let mut taken: Vec<(Measure, Contestant, Duration)> = Vec::new();
    let mut random = XorShift64::new();
    let times = KEYS_A_VALUE.div_ceil(count);
    let value_sum = sum(work.values.iter().map(|value| u64::from(*value)));
    for _ in 0..rounds {
        random.shuffle(&mut tasks);
        for (measure, contestant) in &tasks {
            let (duration, result) = match contestant {
                Contestant::Crate => measure_crate(*measure, times, work, &archive),
                Contestant::Many => measure_many(*measure, times, work, &archive),
                Contestant::Sip => measure_std(*measure, times, work, &sip),
                Contestant::Fx => measure_std(*measure, times, work, &fx),
                Contestant::Limit => measure_limit(*measure, times, work, &archive, limit),
            };
            let expected = match measure {
                Measure::Build | Measure::BuildBorrowed | Measure::Open => count as u64,
                Measure::Hits | Measure::Iterate => value_sum,
                Measure::Misses => MISS * count as u64,
            };
            assert_eq!(result, expected, "{}: another result", measure.name());
            taken.push((*measure, *contestant, duration));
        }
    }
    for measure in measures.iter().copied() {
        // The nanoseconds for an entry.
        let times = CONTESTANTS.map(|contestant| {
            let of_task = taken
                .iter()
                .filter(|(m, c, _)| (*m, *c) == (measure, contestant));
            let times: Vec<Duration> = of_task.map(|(_, _, duration)| *duration).collect();
            (!times.is_empty()).then(|| median(times) / count as f64)
        });
        let [ours, many, sip, fx, limit] = times;
        let ratio = |time: Option<f64>, other: Option<f64>| Some(time? / other?);
        let ratios = [
            ratio(ours, sip),
            ratio(ours, fx),
            ratio(many, fx),
            ratio(ours, limit),
            ratio(many, limit),
        ];
        print!("| {kind} | {count} | {} |", measure.name());
        for number in times.into_iter().chain(ratios) {
            print_cell(number);
        }
        println!();
    }
}

/// Prints the rest of a cell, which is empty if there is no number.
fn print_cell(number: Option<f64>) {
    match number {
        Some(number) => print!(" {number:.2} |"),
        None => print!(" |"),
    }
}

fn load() -> String {
    match std::fs::read_to_string("/proc/loadavg") {
        Ok(load) => load.split(' ').take(3).collect::<Vec<_>>().join(", "),
        Err(_) => "unknown".to_string(),
    }
}

/// Returns keys, the same keys in another order, absent keys, and values.
fn lists(count: usize) -> ([Vec<u32>; 3], Vec<u32>) {
    let mut random = XorShift32::new();
    let keys = numbers(&mut random, count);
    let misses = numbers(&mut random, count);
    let values = numbers(&mut random, count);
    let mut hits = keys.clone();
    XorShift64::new().shuffle(&mut hits);
    ([keys, hits, misses], values)
}

fn main() {
    check::compare_limit();
    let arguments: Vec<String> = std::env::args().skip(1).collect();
    if let [flag, call @ ..] = arguments.as_slice() {
        if flag == "--count" {
            return count::run(call);
        }
    }
    let [by_size, keeps] = flags(["--sizes", "--keep-memory"]);
    if keeps {
        memory::keep();
    }
    let cores = std::thread::available_parallelism().map_or(0, usize::from);
    println!(
        "Cores: {cores}. Load (1, 5, 15 minutes) before: {}. {}.",
        load(),
        if keeps {
            "Freed memory is kept"
        } else {
            "Freed memory goes back to the system"
        }
    );
    println!();
    println!("| keys | entries | measure | crate, ns | get_many, ns | std SipHash, ns | std Fx, ns | limit, ns | crate / SipHash | crate / Fx | get_many / Fx | crate / limit | get_many / limit |");
    println!("|---|--:|---|--:|--:|--:|--:|--:|--:|--:|--:|--:|--:|");
    for (count, rounds) in if by_size { SIZES } else { COUNTS }.iter().copied() {
        let (numbers, values) = lists(count);
        let work = Workload::new(&numbers, &values);
        run("u32", OF_NUMBERS, &limit::OF_NUMBERS, &work, rounds);
        let texts = numbers
            .each_ref()
            .map(|list| list.iter().copied().map(text_of).collect::<Vec<_>>());
        let texts = texts
            .each_ref()
            .map(|list| list.iter().map(String::as_str).collect::<Vec<_>>());
        let of_texts = if by_size { OF_NUMBERS } else { OF_TEXTS };
        let text_work = Workload::new(&texts, &values);
        run(
            "text",
            of_texts,
            &Calls::<_, HashKind>::NONE,
            &text_work,
            rounds,
        );
        if !by_size {
            run(
                "index u32",
                OF_NUMBERS,
                &limit::OF_INDEX_MAPS,
                &work,
                rounds,
            );
        }
    }
    println!();
    println!("Load after: {}.", load());
}
