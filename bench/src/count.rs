//! Repeats one call, so that `bench/instructions` can count its instructions.

use crate::archived::{build, Archive, MapKind};
use crate::limit::{self, Calls};
use crate::lists;
use std::hint::black_box;

/// Repeats the call of the arguments `SIDE CASE SIZE REPEATS`. Exits with status 2 if there is none.
///
/// The side is `crate`, `get_many` or `limit`, and the size is the number of entries. A case is an
/// operation and a kind of map, as `hit index u32`. Each call builds an archive (`build`), looks up
/// all keys or as many absent ones (`hit`, `miss`), or iterates over all entries (`walk`).
pub fn run(arguments: &[String]) {
    if repeat_call(arguments).is_none() {
        eprintln!("no such call: {}", arguments.join(", "));
        std::process::exit(2);
    }
}

/// Repeats the call of the arguments. Returns `None` if there is none.
fn repeat_call(arguments: &[String]) -> Option<()> {
    let [side, case, size, repeats] = arguments else {
        return None;
    };
    let (operation, kind) = case.split_once(' ')?;
    let (lists, values) = lists(size.parse().ok()?);
    let repeats = repeats.parse().ok()?;
    match kind {
        "u32" => repeat(
            side,
            &limit::OF_NUMBERS,
            operation,
            &lists,
            &values,
            repeats,
        ),
        "index u32" => repeat(
            side,
            &limit::OF_INDEX_MAPS,
            operation,
            &lists,
            &values,
            repeats,
        ),
        _ => None,
    }
}

/// Repeats an operation. Returns `None` if it is unknown, or the side hasn't got it.
fn repeat<C: MapKind>(
    side: &str,
    limit: &Calls<u32, C>,
    operation: &str,
    [keys, hits, misses]: &[Vec<u32>; 3],
    values: &[u32],
    repeats: usize,
) -> Option<()> {
    let bytes = build::<u32, C>(keys, values);
    let archive = Archive::<u32, C>::open(&bytes);
    match (side, operation) {
        ("crate", "build") => times(repeats, || build::<u32, C>(black_box(keys), values).len()),
        ("limit", "build") => {
            let (build, mut out) = (limit.build?, vec![0; bytes.len()]);
            times(repeats, || build(black_box(keys), values, &mut out));
        }
        ("crate", "walk") => times(repeats, || black_box(&archive).iterate()),
        ("limit", "walk") => {
            let iterate = limit.iterate?;
            times(repeats, || iterate(black_box(&archive)));
        }
        (_, "hit" | "miss") => {
            let list = if operation == "hit" { hits } else { misses };
            match side {
                "crate" => times(repeats, || archive.get_each(black_box(list))),
                "get_many" => times(repeats, || archive.get_many(black_box(list))),
                "limit" => {
                    let lookup = limit.lookup?;
                    times(repeats, || lookup(black_box(list), &archive));
                }
                _ => return None,
            }
        }
        _ => return None,
    }
    Some(())
}

fn times<T>(repeats: usize, mut call: impl FnMut() -> T) {
    for _ in 0..repeats {
        black_box(call());
    }
}
