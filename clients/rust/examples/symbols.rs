//! A symbol table: a file of names and addresses, which is mapped to look names up.
//!
//! The file is a container. So another file, or a damaged one, is an error. `build` replaces the
//! file, and a program that has mapped it keeps the old one.
//!
//! ```sh
//! nm program | cargo run --example symbols -- build program.symbols
//! cargo run --example symbols -- find program.symbols main _start
//! cargo run --example symbols -- list program.symbols
//! ```
//!
//! The status is 1 if a name is missing, and 2 after an error. Without arguments a small table is
//! built in a temporary file and looked up.

mod mapping;

use std::error::Error;
use std::fs::{self, File};
use std::io::{self, BufRead, Write};
use std::path::{Path, PathBuf};
use std::process::ExitCode;

use hodkhaki::{Builder, Checksum, Map};
use mapping::{Mapping, Temporary};

const LINES: &str = "\
0000000000001139 T main
0000000000001040 T _start
                 U puts@GLIBC_2.2.5
0000000000004028 B a_name_that_is_longer_than_a_bucket
";

type Table<'a> = Map<'a, str, u64>;

/// Writes the symbols of `nm`'s lines, `ADDRESS TYPE NAME`, to a file. Others have no address.
///
/// A running program may have mapped the file. So the symbols are written to a new file beside it,
/// whose name has `.new` behind it, and that file is renamed. Fails if a file has that name.
fn build(path: &Path, lines: impl BufRead) -> Result<usize, Box<dyn Error>> {
    let mut symbols = Builder::<str, u64>::new();
    for line in lines.lines() {
        let line = line?;
        let fields: Vec<&str> = line.split_whitespace().collect();
        if let [address, _, name] = fields[..] {
            let address = u64::from_str_radix(address, 16);
            symbols.push(name, address.map_err(|error| format!("{line}: {error}"))?);
        }
    }
    let built = symbols.build()?;
    let mut new = path.as_os_str().to_owned();
    new.push(".new");
    let new = PathBuf::from(new);
    let file = File::create_new(&new).map_err(|error| in_file(&new, error))?;
    built
        .write_container(Checksum::Adler32, file)
        .and_then(|()| fs::rename(&new, path))
        .map_err(|error| {
            let _ = fs::remove_file(&new);
            in_file(path, error)
        })?;
    Ok(symbols.len())
}

/// Maps a file, and passes its symbol table to a function.
fn with_table<T>(path: &Path, use_table: impl FnOnce(Table) -> T) -> Result<T, Box<dyn Error>> {
    // SAFETY: `build` replaces a file, and never changes or truncates it. No other program should.
    let bytes = unsafe { Mapping::open(path) }.map_err(|error| in_file(path, error))?;
    let table = Table::open(&bytes).map_err(|error| in_file(path, error))?;
    Ok(use_table(table))
}

fn in_file(path: &Path, error: impl Error) -> String {
    format!("{}: {error}", path.display())
}

/// Prints the addresses of names, and returns whether each name is in the table.
fn find<N: AsRef<str>>(table: Table, names: &[N]) -> io::Result<bool> {
    let mut all = true;
    let mut out = io::stdout().lock();
    for name in names.iter().map(AsRef::as_ref) {
        match table.get(name) {
            Some(address) => writeln!(out, "{address:016x} {name}")?,
            None => {
                eprintln!("{name}: no such symbol");
                all = false;
            }
        }
    }
    Ok(all)
}

/// Prints the symbols by ascending address.
fn list(table: Table) -> io::Result<()> {
    let mut symbols: Vec<(&str, u64)> = table.iter().collect();
    symbols.sort_by_key(|&(name, address)| (address, name));
    let mut out = io::stdout().lock();
    for (name, address) in symbols {
        writeln!(out, "{address:016x} {name}")?;
    }
    Ok(())
}

fn run(words: &[&str]) -> Result<bool, Box<dyn Error>> {
    match words {
        [] => {
            let file = Temporary::new("example.symbols")?;
            let count = build(&file, LINES.as_bytes())?;
            writeln!(io::stdout().lock(), "{count} symbols")?;
            let found = with_table(&file, |table| find(table, &["main", "_start"]))?;
            Ok(found?)
        }
        ["build", file] => {
            let count = build(file.as_ref(), io::stdin().lock())?;
            writeln!(io::stdout().lock(), "{count} symbols")?;
            Ok(true)
        }
        ["find", file, names @ ..] => Ok(with_table(file.as_ref(), |table| find(table, names))??),
        ["list", file] => {
            with_table(file.as_ref(), list)??;
            Ok(true)
        }
        _ => Err("symbols [build FILE < LINES | find FILE NAME.. | list FILE]".into()),
    }
}

fn main() -> ExitCode {
    let words: Vec<String> = std::env::args().skip(1).collect();
    match run(&words.iter().map(String::as_str).collect::<Vec<_>>()) {
        Ok(true) => ExitCode::SUCCESS,
        Ok(false) => ExitCode::from(1),
        Err(error) => {
            eprintln!("{error}");
            ExitCode::from(2)
        }
    }
}
