//! A dictionary that all threads of a program share, over one mapping of a file.
//!
//! ```sh
//! cargo run --example dictionary
//! ```
//!
//! The map owns the mapping. It is in a static variable, so the mapping is never unmapped. The file
//! is validated once. Any thread then looks words up, without a lock. In the example `shared` the
//! threads end before the bytes do.

mod mapping;

use std::error::Error;
use std::fs::File;
use std::sync::OnceLock;
use std::thread;

use hodkhaki::{Builder, Checksum, Map, MapBuf};
use mapping::{Mapping, Temporary};

static DICTIONARY: OnceLock<MapBuf<str, u32, Mapping>> = OnceLock::new();

/// The dictionary, which `main` opens before it starts threads.
fn dictionary() -> Map<'static, str, u32> {
    let owned = DICTIONARY.get().expect("the dictionary is open");
    owned.as_map()
}

/// The number that the dictionary has for a numeral, such as "seventy-two".
fn number(words: &str) -> Option<u32> {
    words.split('-').map(|word| dictionary().get(word)).sum()
}

const NUMERALS: [(&str, u32); 27] = [
    ("one", 1),
    ("two", 2),
    ("three", 3),
    ("four", 4),
    ("five", 5),
    ("six", 6),
    ("seven", 7),
    ("eight", 8),
    ("nine", 9),
    ("ten", 10),
    ("eleven", 11),
    ("twelve", 12),
    ("thirteen", 13),
    ("fourteen", 14),
    ("fifteen", 15),
    ("sixteen", 16),
    ("seventeen", 17),
    ("eighteen", 18),
    ("nineteen", 19),
    ("twenty", 20),
    ("thirty", 30),
    ("forty", 40),
    ("fifty", 50),
    ("sixty", 60),
    ("seventy", 70),
    ("eighty", 80),
    ("ninety", 90),
];

fn main() -> Result<(), Box<dyn Error>> {
    let file = Temporary::new("numerals.map")?;
    let built = Builder::<str, u32>::from(NUMERALS).build()?;
    built.write_container(Checksum::Adler32, File::create(&*file)?)?;

    // SAFETY: this process has created the file, and no other program opens it.
    let mapping = unsafe { Mapping::open(&file)? };
    let map = MapBuf::open(mapping)?;
    DICTIONARY.get_or_init(|| map);

    let threads = ["seventy-two", "forty-one", "nineteen", "ninety-none"].map(|words| {
        thread::spawn(move || {
            let number = number(words);
            (words, number)
        })
    });
    for thread in threads {
        match thread.join().expect("a thread doesn't panic") {
            (words, Some(number)) => println!("{words} is {number}"),
            (words, None) => println!("{words} is not in the dictionary"),
        }
    }
    assert_eq!((number("seventy-two"), number("zero")), (Some(72), None));
    Ok(())
}
