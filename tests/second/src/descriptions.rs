//! The reader of record descriptions (02, a), written from document 02 alone.
//! Comments in double quotes are that paper's sentences.
//!
//! The way taken here: a recogniser of whole valid texts, word by word and then
//! entry by entry (`entries`); the faulty byte by trying completions of each
//! beginning with that recogniser (`completions`); rows and limits over whole
//! numbers of any size (`rows`); condition-names behind their items
//! (`conditions`, 02, h).

pub mod case;
#[cfg(feature = "library")]
pub mod compare;
mod completions;
mod conditions;
mod entries;
pub mod generate;
mod pictures;
mod rows;
#[cfg(test)]
mod tests;
mod values;
pub(crate) mod words;

use crate::literals::Literals;
use crate::rules::{check_room, Refusal};
use conditions::Conditions;
use entries::{Entry, Form};

/// "Byte 4,096 is faulty."
const LONGEST: usize = 4_096;

/// What a valid description says: item rows, and for each the place of its name
/// or FILLER; "name rows, name places, literal rows and bytes last" (02, h).
#[derive(Clone, Debug, Default, PartialEq, Eq)]
pub struct Described {
    pub rows: Vec<u32>,
    pub places: Vec<u32>,
    pub names: Vec<u32>,
    pub name_places: Vec<u32>,
    pub literals: Literals,
}

/// Where describe writes, in the order of its outputs.
pub struct Outputs<'a> {
    pub numbers: [&'a mut [u32]; 5],
    pub bytes: &'a mut [u8],
}

/// "Read one or more upper-case COBOL entries ..." "Write item rows, and for
/// each the place of its name or FILLER." Refusals 14 and 10; success gives each
/// output's count.
pub fn describe(text: &[u8], outputs: Outputs) -> Result<[u32; 6], Refusal> {
    let described = read(text)?;
    let Outputs { numbers, bytes } = outputs;
    let said = described.numbers();
    for (output, said) in numbers.iter().zip(said) {
        check_room(output.len(), said.len())?;
    }
    let laid = &described.literals.bytes;
    check_room(bytes.len(), laid.len())?;
    for (output, said) in numbers.into_iter().zip(said) {
        output[..said.len()].copy_from_slice(said);
    }
    bytes[..laid.len()].copy_from_slice(laid);
    Ok(described.counts())
}

impl Described {
    fn numbers(&self) -> [&[u32]; 5] {
        [
            &self.rows,
            &self.places,
            &self.names,
            &self.name_places,
            &self.literals.rows,
        ]
    }

    pub fn counts(&self) -> [u32; 6] {
        let [rows, places, names, name_places, literals] =
            self.numbers().map(|said| said.len() as u32);
        let bytes = self.literals.bytes.len() as u32;
        [rows, places, names, name_places, literals, bytes]
    }
}

/// Refusal 14, or what the text says.
pub fn read(text: &[u8]) -> Result<Described, Refusal> {
    let fault = fault(text);
    let before = &text[..fault.unwrap_or(text.len())];
    let complete = entries::complete(before);
    // "The smallest place wins": every entry stands before the faulty byte.
    let described = said(before, &complete)?;
    match fault {
        Some(place) => Err(Refusal::at(14, place as u32)),
        None => Ok(described),
    }
}

/// What entries say, up to the first that passes a limit.
fn said(text: &[u8], entries: &[Entry]) -> Result<Described, Refusal> {
    let items: Vec<Entry> = entries.iter().filter(|e| e.is_item()).cloned().collect();
    let mut table = rows::rows(text, &items).into_iter();
    let mut described = Described::default();
    let mut conditions = Conditions::default();
    for entry in entries {
        let beyond_limits = Err(Refusal::at(14, entry.start as u32));
        let name = entry.name.start as u32;
        if let Form::Condition { values } = &entry.form {
            if conditions.add(text, &described.rows, values).is_none() {
                return beyond_limits;
            }
            described.name_places.push(name);
        } else {
            let row = table.next().filter(|row| !row.is_beyond_limits());
            let full = described.places.len() == rows::MOST_ROWS;
            match row {
                Some(row) if !full => described.rows.extend(row.numbers()),
                _ => return beyond_limits,
            }
            described.places.push(name);
        }
    }
    described.names = conditions.names;
    described.literals = conditions.literals;
    Ok(described)
}

/// The "first faulty byte, which after the same beginning no valid text, its
/// length and row limits aside, could have", or the end of a text that could go
/// on but not end.
fn fault(text: &[u8]) -> Option<usize> {
    if text.len() <= LONGEST && entries::is_valid(text) {
        return None;
    }
    let readable = &text[..text.len().min(LONGEST)];
    Some(completions::longest_shared_beginning(readable))
}
