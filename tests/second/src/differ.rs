//! What differs between two copies (02, j), written from document 02 alone.

pub mod case;
#[cfg(feature = "library")]
pub mod compare;
pub mod files;
mod generate;
#[cfg(test)]
mod tests;

use crate::descriptions;
use crate::rules::content::value;
use crate::rules::tables::{check_items, check_rows, rows, Row};
use crate::rules::{check_room, Refusal};
use std::fmt::Write;

/// "Lists each elementary item whose bytes differ, in row order": pairs of a row
/// and its mark, a letter's byte. Refusals 1, 2, 12, where the place is the first
/// row that either record ends before, and 10.
pub fn differ(
    items: &[u32],
    first: &[u8],
    second: &[u8],
    output: &mut [u32],
) -> Result<[u32; 1], Refusal> {
    let marks = marks(items, first, second)?;
    check_room(output.len(), marks.len())?;
    output[..marks.len()].copy_from_slice(&marks);
    Ok([marks.len() as u32])
}

fn marks(items: &[u32], first: &[u8], second: &[u8]) -> Result<Vec<u32>, Refusal> {
    check_items(items)?;
    let both = |row: &Row| Some((row.part(first)?, row.part(second)?));
    check_rows(12, items, |row| both(&row).is_some())?;
    let elementary = (0..).zip(rows(items)).filter(|(_, row)| !row.is_group());
    let marked = elementary.filter_map(|(number, row)| {
        let (one, other) = both(&row)?;
        (one != other).then(|| [number, u32::from(mark(&row, one, other))])
    });
    Ok(marked.flatten().collect())
}

/// "V if values differ, B if numeric values are equal, I if either content is
/// invalid". "Nonnumeric items give V." Of bytes that differ.
fn mark(row: &Row, one: &[u8], other: &[u8]) -> u8 {
    if !row.numeric() {
        return b'V';
    }
    match (value(row, one), value(row, other)) {
        (Some(one), Some(other)) if one == other => b'B',
        (Some(_), Some(_)) => b'V',
        _ => b'I',
    }
}

/// What the program prints: "row number in decimal, a space, [the mark], then a
/// line feed"; "a refusal, 14 by a) or else 12, prints only R, a space, its number
/// and a line feed".
pub fn text(description: &[u8], first: &[u8], second: &[u8]) -> String {
    let marks =
        descriptions::read(description).and_then(|described| marks(&described.rows, first, second));
    let mut text = String::new();
    match marks {
        Ok(marks) => {
            for pair in marks.chunks_exact(2) {
                let _ = writeln!(text, "{} {}", pair[0], char::from(pair[1] as u8));
            }
        }
        Err(refusal) => {
            let _ = writeln!(text, "R {}", refusal.number);
        }
    }
    text
}
