//! The three files that the program is given, and what it prints.

use super::text;
use crate::descriptions;
use crate::generate::records::{changed, cut};
use crate::random::Random;
use std::fs;
use std::io;
use std::path::Path;

/// "A program whose arguments name three files, a description and two records
/// (one that can't be read counts as empty)".
pub fn printed(paths: [&str; 3]) -> String {
    let [description, first, second] = paths.map(|path| fs::read(path).unwrap_or_default());
    text(&description, &first, &second)
}

/// Writes the files of a random case to a folder; an empty one may be missing.
pub fn write(seed: u64, index: u64, folder: &str) -> io::Result<()> {
    let mut random = Random::new(seed ^ 0xD1FF_F11E, index);
    let description = descriptions::generate::case(seed, index).text;
    let first = record(&mut random, &description);
    let items = descriptions::read(&description).map_or_else(|_| Vec::new(), |said| said.rows);
    let mut second = changed(&mut random, &items, &first);
    cut(&mut random, &mut second);
    for (name, content) in [
        ("description", description),
        ("first", first),
        ("second", second),
    ] {
        let path = Path::new(folder).join(name);
        let missing = content.is_empty() && random.chance(500);
        let _ = fs::remove_file(&path);
        if !missing {
            fs::write(path, content)?;
        }
    }
    Ok(())
}

/// Bytes for the items of a description, most of them digits.
fn record(random: &mut Random, description: &[u8]) -> Vec<u8> {
    let items = descriptions::read(description).map_or_else(|_| Vec::new(), |said| said.rows);
    let rows = crate::rules::tables::rows(&items);
    let length = rows.map(|row| row.offset + row.size).max().unwrap_or(0);
    let digits = (0..length)
        .map(|_| random.pick(b"0123456789"))
        .collect::<Vec<u8>>();
    let mut record = changed(random, &items, &digits);
    cut(random, &mut record);
    record
}
