//! "Names come from text of a)"; "e) learns such names" of conditions (02, h).

use crate::descriptions::Described;
use crate::rules::tokens::NAME;

/// The name of each item's row, or FILLER, and of each condition's row, with the
/// token that it gives.
pub struct Names<'a> {
    rows: Vec<(u32, &'a [u8])>,
}

impl<'a> Names<'a> {
    pub fn of(description: &'a [u8], described: &Described) -> Names<'a> {
        let word = |&place: &u32| word_at(description, place as usize);
        let items = (0..).zip(described.places.iter().map(word));
        let conditions = (NAME..).zip(described.name_places.iter().map(word));
        let rows = items.chain(conditions).collect();
        Names { rows }
    }

    /// The token of the item or condition that a name names; None for "an unknown or
    /// doubled name". Names of items and of conditions are one set.
    pub fn token(&self, name: &[u8]) -> Option<u32> {
        let mut named = self.rows.iter().filter(|(_, row)| *row == name);
        match (named.next(), named.next()) {
            (Some(&(token, _)), None) => Some(token),
            _ => None,
        }
    }

    /// The name that is read as a row's token again: none for FILLER, which is no
    /// name, or a doubled one.
    pub fn name(&self, token: u32) -> Option<&'a [u8]> {
        let &(_, name) = self.rows.iter().find(|(row, _)| *row == token)?;
        (name != b"FILLER" && self.token(name) == Some(token)).then_some(name)
    }

    /// The tokens that have a name of their own.
    pub fn tokens(&self) -> Vec<u32> {
        let tokens = self.rows.iter().map(|&(token, _)| token);
        tokens.filter(|&token| self.name(token).is_some()).collect()
    }
}

/// A name ends at a blank or at its entry's period.
fn word_at(description: &[u8], place: usize) -> &[u8] {
    let rest = &description[place..];
    let end = rest.iter().position(|byte| b" \n.".contains(byte));
    &rest[..end.unwrap_or(rest.len())]
}
