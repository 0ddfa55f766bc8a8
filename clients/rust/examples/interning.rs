//! Builds a table of words, and looks words and ids up in it.
//!
//! ```sh
//! cargo run --example interning -- was der
//! ```
//!
//! The arguments are the words to look up. Without arguments some are looked up that the text has,
//! and one that it hasn't.

use std::error::Error;

use hodkhaki::{IndexSet, SetBuilder};

const TEXT: &str =
    "the map is built once and the bytes of the map are read many times, and the words \
                    of a text are few but each of the few is used many times";

/// The words of a text, each once, in the order of their first use.
fn words(text: &str) -> SetBuilder<str> {
    let mut words = SetBuilder::new();
    let letters = |letter: char| !letter.is_alphanumeric();
    for word in text.split(letters).filter(|word| !word.is_empty()) {
        words.insert(word);
    }
    words
}

fn main() -> Result<(), Box<dyn Error>> {
    // The id of a word is its index in the set.
    let bytes = words(TEXT).build_index()?.into_bytes();

    // The bytes can be stored and opened by another program, with this type alone.
    let table = IndexSet::<str>::open(&bytes)?;
    println!("{} words in {} bytes", table.len(), bytes.len());
    let ids = TEXT
        .split([' ', ','])
        .filter_map(|word| table.get_index_of(word));
    let ids: Vec<usize> = ids.collect();
    println!("the text is {ids:?}");

    let mut sought: Vec<String> = std::env::args().skip(1).collect();
    if sought.is_empty() {
        sought = ["map", "times", "archive"].map(String::from).to_vec();
    }
    for word in &sought {
        match table.get_index_of(word) {
            Some(id) => println!("{word} has the id {id}"),
            None => println!("{word} is not in the table"),
        }
    }
    assert_eq!(table.get_index(ids[0]), Some("the"));
    Ok(())
}
