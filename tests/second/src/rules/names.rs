//! Condition-names (02, h): the rows of the name table, and refusal 18.

use super::tables::{Tables, ROW};
use super::tokens::{LITERAL, NAME};
use super::typing::relation_typed;
use super::values::literals_ordered;
use super::{refuse, Refusal};

/// Numbers in a row of the name table.
pub const NAME_ROW: usize = 18;
const MOST_ROWS: usize = 64;
const MOST_VALUES: usize = 8;

/// "Rows of 18 numbers: item row, a count of 1 to 8, that many pairs of literal
/// rows (low and high, ends included, alike for a single value), zeros."
#[derive(Clone, Copy)]
pub struct NameRow<'a> {
    pub item: u32,
    count: u32,
    numbers: &'a [u32],
}

impl<'a> NameRow<'a> {
    fn of(numbers: &'a [u32]) -> NameRow<'a> {
        NameRow {
            item: numbers[0],
            count: numbers[1],
            numbers: &numbers[2..],
        }
    }

    /// The pairs of literal rows; of a count from 1 to 8.
    pub fn pairs(&self) -> impl Iterator<Item = [u32; 2]> + 'a {
        let pairs = self.numbers.chunks_exact(2).take(self.count as usize);
        pairs.map(|pair| [pair[0], pair[1]])
    }

    /// "A range whose low end exceeds its high end or has one numeric end only, a
    /// value that may not be compared with the item, or a row otherwise unsound".
    fn is_sound(&self, tables: &Tables) -> bool {
        let items = tables.items.len() / ROW;
        let counted = (1..=MOST_VALUES as u32).contains(&self.count);
        counted
            && (self.item as usize) < items
            && self.numbers[2 * self.count as usize..]
                .iter()
                .all(|&number| number == 0)
            && self.pairs().all(|pair| pair_fits(tables, self.item, pair))
    }
}

fn pair_fits(tables: &Tables, item: u32, pair: [u32; 2]) -> bool {
    let there = |row: u32| (row as usize) < tables.literals.len() / ROW;
    let compares = |row: u32| relation_typed(tables, item, LITERAL + row);
    pair.iter().all(|&row| there(row) && compares(row)) && literals_ordered(tables, pair)
}

pub fn name_rows(names: &[u32]) -> impl Iterator<Item = NameRow<'_>> {
    names.chunks_exact(NAME_ROW).map(NameRow::of)
}

/// The row that a token of kind 5 names.
pub fn name_of<'a>(tables: &Tables<'a>, token: u32) -> NameRow<'a> {
    let start = NAME_ROW * (token - NAME) as usize;
    NameRow::of(&tables.names[start..start + NAME_ROW])
}

/// 18: unsound rows "at its row (an unfit length at 0), just after 4".
pub fn check_names(tables: &Tables) -> Result<(), Refusal> {
    let length = tables.names.len();
    if !length.is_multiple_of(NAME_ROW) || length > MOST_ROWS * NAME_ROW {
        return refuse(18, 0);
    }
    match name_rows(tables.names).position(|row| !row.is_sound(tables)) {
        Some(place) => refuse(18, place),
        None => Ok(()),
    }
}
