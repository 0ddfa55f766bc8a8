//! A dictionary of words to their translations, which are borrowed from the bytes of the map.
//!
//! ```sh
//! cargo run --example translations
//! ```
//!
//! Keys and values are strings. A lookup returns a part of the bytes, without copying it.

use std::error::Error;

use hodkhaki::{Builder, Map};

/// Words of Czech, each with its meaning.
const WORDS: &str = "\
    čaj\ttea
    káva\tcoffee
    dort\tcake
    nejneobhospodařovávatelnější\tthe least possible to cultivate";

/// The translation of each word, or the word itself if the dictionary doesn't have it.
fn translated<'a>(dictionary: Map<'a, str, str>, words: &'a str) -> Vec<&'a str> {
    let translate = |word| dictionary.get(word).unwrap_or(word);
    words.split(' ').map(translate).collect()
}

fn main() -> Result<(), Box<dyn Error>> {
    let pairs = WORDS
        .lines()
        .filter_map(|line| line.trim().split_once('\t'));
    let builder: Builder<str, str> = pairs.collect();
    let container: Vec<u8> = builder.build()?.into_bytes();

    let dictionary = Map::<str, str>::open(&container)?;
    for (word, meaning) in dictionary {
        println!("{word}: {meaning}");
    }
    let words = translated(dictionary, "čaj nebo káva");
    println!("{}", words.join(" "));
    assert_eq!(words, ["tea", "nebo", "coffee"]);
    Ok(())
}
