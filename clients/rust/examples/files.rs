//! Writes a container to a file, maps the file, and writes values in place.
//!
//! ```sh
//! cargo run --example files
//! ```
//!
//! No byte is copied between the file and the map: the system loads the pages that lookups read,
//! and stores those that are written. The container records the types, so the file is never opened
//! as another map.

mod mapping;

use std::error::Error;
use std::fs::File;

use hodkhaki::{Builder, Checksum, Map, MapMut};
use mapping::{Mapping, MappingMut, Temporary};

fn main() -> Result<(), Box<dyn Error>> {
    let file = Temporary::new("visits.map")?;
    let visits = Builder::<str, u64>::from([("index.html", 10), ("about.html", 2)]);
    let built = visits.build()?;
    built.write_container(Checksum::Adler32, File::create(&*file)?)?;

    // SAFETY: this process has created the file, and no other program opens it.
    let mut bytes = unsafe { MappingMut::open(&file)? };
    let mut map = MapMut::<str, u64>::open(&mut bytes)?;
    for page in ["about.html", "index.html", "about.html", "missing.html"] {
        match map.get(page) {
            Some(count) => assert!(map.set(page, count + 1)),
            None => println!("{page} is not in the file"),
        }
    }
    // Dropping the map writes the checksum anew.
    drop(map);
    drop(bytes);

    // SAFETY: as above.
    let bytes = unsafe { Mapping::open(&file)? };
    let map = Map::<str, u64>::open(&bytes)?;
    for (page, count) in map {
        println!("{page} {count}");
    }
    assert_eq!((map.at("index.html"), map.at("about.html")), (11, 4));
    Ok(())
}
