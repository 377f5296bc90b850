//! Conditions as printed (02, e): the reader of condition texts and the printer,
//! written from document 02 alone. Comments in double quotes are its sentences.
//!
//! The way taken here: a text is cut into words; each word alone is named; then
//! the words that belong together are joined by looking at their neighbours.

pub mod case;
#[cfg(feature = "library")]
pub mod compare;
pub mod generate;
mod joining;
mod names;
mod printing;
#[cfg(test)]
mod tests;
mod words;

use crate::descriptions;
use crate::literals::Literals;
use crate::rules::{check_room, Refusal, Tables};
use joining::Joined;
use names::Names;

/// "Byte 2,048 is refused".
pub const LONGEST: usize = 2_048;

/// What a condition text says.
#[derive(Clone, Debug, Default, PartialEq, Eq)]
pub struct Condition {
    pub tokens: Vec<u32>,
    pub literals: Vec<u32>,
    pub bytes: Vec<u8>,
}

/// "Read condition text in upper-case COBOL into tokens, literal rows and literal
/// bytes, laid in turn", beginning with the description's (02, h). Refusals 14, then 15 and 16, then 5, then 10.
pub fn read(
    description: &[u8],
    text: &[u8],
    tokens: &mut [u32],
    literals: &mut [u32],
    bytes: &mut [u8],
) -> Result<[u32; 3], Refusal> {
    let condition = condition(description, text)?;
    check_room(tokens.len(), condition.tokens.len())?;
    check_room(literals.len(), condition.literals.len())?;
    check_room(bytes.len(), condition.bytes.len())?;
    tokens[..condition.tokens.len()].copy_from_slice(&condition.tokens);
    literals[..condition.literals.len()].copy_from_slice(&condition.literals);
    bytes[..condition.bytes.len()].copy_from_slice(&condition.bytes);
    Ok([
        condition.tokens.len() as u32,
        condition.literals.len() as u32,
        condition.bytes.len() as u32,
    ])
}

/// "A printer writes tokens back, one space between words, relations as symbols;
/// it refuses with 14, 3 to 6 (6 for an off switch), 16 for FILLER or a doubled
/// name at its token, then 10."
pub fn print(
    description: &[u8],
    literals: &[u32],
    bytes: &[u8],
    tokens: &[u32],
    output: &mut [u8],
) -> Result<[u32; 1], Refusal> {
    let described = descriptions::read(description)?;
    let names = Names::of(description, &described);
    let tables = Tables {
        items: &described.rows,
        literals,
        bytes,
        names: &described.names,
        ..Tables::default()
    };
    let text = printing::text(&names, &tables, tokens)?;
    check_room(output.len(), text.len())?;
    output[..text.len()].copy_from_slice(&text);
    Ok([text.len() as u32])
}

/// All but the room: "names come from text of a), its 14 first"; "a faulty word, a
/// literal outside 01's limits, a 65th or byte 2,048 is refused with 15, an
/// unknown or doubled name with 16, at its first byte; the smallest place wins,
/// then 5".
fn condition(description: &[u8], text: &[u8]) -> Result<Condition, Refusal> {
    let described = descriptions::read(description)?;
    let names = Names::of(description, &described);
    let words = said(&names, described.literals, text);
    let too_long = (text.len() > LONGEST).then(|| Refusal::at(15, LONGEST as u32));
    let faults = words.as_ref().err().copied().into_iter().chain(too_long);
    if let Some(first) = faults.min_by_key(|fault| (fault.place, fault.number)) {
        return Err(first);
    }
    let condition = words.unwrap_or_default();
    if condition.tokens.is_empty() || condition.tokens.len() > 256 {
        return Err(Refusal::at(5, 0));
    }
    Ok(condition)
}

/// The words in turn, up to the first that is refused; "its literals begin with
/// these" of the description (02, h).
fn said(names: &Names, mut literals: Literals, text: &[u8]) -> Result<Condition, Refusal> {
    let mut tokens = Vec::new();
    for word in joining::joined(names, text) {
        let refuse = |number| Err(Refusal::at(number, word.start as u32));
        tokens.push(match word.means {
            Joined::Token(token) => token,
            Joined::Faulty => return refuse(15),
            Joined::Name => match names.token(word.text) {
                Some(token) => token,
                None => return refuse(16),
            },
            Joined::Literal => match literals.add(word.text) {
                Some(token) => token,
                None => return refuse(15),
            },
        });
    }
    Ok(Condition {
        tokens,
        literals: literals.rows,
        bytes: literals.bytes,
    })
}
