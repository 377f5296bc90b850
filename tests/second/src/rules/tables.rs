//! The tables of items and literals: rows and refusals 1 to 4; the record they name parts of: 12.

use super::content::valid_content;
use super::names::check_names;
use super::{refuse, Edition, Refusal};
use std::ops::Range;

/// The tables and the literal bytes, lent to every call: "a lent table of up to 64
/// rows of 18 numbers" for condition-names too (02, h).
#[derive(Clone, Copy, Debug, Default)]
pub struct Tables<'a> {
    pub items: &'a [u32],
    pub literals: &'a [u32],
    pub bytes: &'a [u8],
    pub names: &'a [u32],
    /// Not lent: the rules by which the call goes.
    pub edition: Edition,
}

/// "A row is four numbers: kind, offset, size in bytes, scale (digits after
/// the point)." "Rows grow to five numbers, the fifth being the digit count"
/// (02, f).
#[derive(Clone, Copy)]
pub struct Row {
    pub kind: u32,
    pub offset: u32,
    pub size: u32,
    pub scale: u32,
    pub digits: u32,
}

/// Numbers in a row.
pub const ROW: usize = 5;

impl Row {
    pub fn of(numbers: &[u32]) -> Row {
        Row {
            kind: numbers[0],
            offset: numbers[1],
            size: numbers[2],
            scale: numbers[3],
            digits: numbers[4],
        }
    }

    /// Numeric is "3 to 6", and packed (02, f).
    pub fn numeric(&self) -> bool {
        (3..=6).contains(&self.kind) || self.packed()
    }

    /// "Kind 8 is signed packed, kind 9 unsigned" (02, f).
    pub fn packed(&self) -> bool {
        matches!(self.kind, 8 | 9)
    }

    /// "Add row kind 7, a group with no signed item at any depth [...]; it is
    /// sized, compared and tested for letters as a group" (02, b).
    pub fn is_group(&self) -> bool {
        matches!(self.kind, 0 | 7)
    }

    /// "Kind 0: size 1 to 65,535, scale 0. Kinds 1, 2: size 1 to 256, scale 0.
    /// Kinds 3, 4: size 1 to 18, scale 0 to size. Kinds 5, 6: size 2 to 19,
    /// scale 0 to size − 1. Offset at most 65,535." The digit count: "1 to 18
    /// for numeric kinds, agreeing with the size, 0 for others"; of kinds 8, 9
    /// "size is half the digits, rounded down, plus 1; scale is at most the
    /// digits" (02, f).
    pub fn keeps_rules(&self) -> bool {
        let measures = match self.kind {
            0 | 7 => (1..=65_535).contains(&self.size) && self.scale == 0,
            1 | 2 => (1..=256).contains(&self.size) && self.scale == 0,
            3 | 4 => (1..=18).contains(&self.size) && self.scale <= self.size,
            5 | 6 => (2..=19).contains(&self.size) && self.scale < self.size,
            8 | 9 => (1..=10).contains(&self.size) && self.scale <= self.digits,
            _ => false,
        };
        measures && self.digits_agree() && self.offset <= 65_535
    }

    /// Asked of a size within its limits.
    fn digits_agree(&self) -> bool {
        match self.kind {
            3 | 4 => self.digits == self.size,
            5 | 6 => self.digits == self.size - 1,
            8 | 9 => (1..=18).contains(&self.digits) && self.size == self.digits / 2 + 1,
            _ => self.digits == 0,
        }
    }

    /// "An operand's bytes are that part of the record or of the literal bytes
    /// which its row names." None where the part does not lie wholly inside.
    pub fn part<'a>(&self, bytes: &'a [u8]) -> Option<&'a [u8]> {
        bytes.get(self.bytes())
    }

    /// The places of its bytes.
    pub fn bytes(&self) -> Range<usize> {
        let start = self.offset as usize;
        start..start + self.size as usize
    }

    /// "Literal rows have kinds 2, 3 or 5 only, lie wholly in the literal
    /// bytes, and hold valid content."
    pub fn keeps_literal_rules(&self, bytes: &[u8]) -> bool {
        matches!(self.kind, 2 | 3 | 5)
            && self.keeps_rules()
            && self
                .part(bytes)
                .is_some_and(|content| valid_content(self, content))
    }
}

pub fn rows(table: &[u32]) -> impl Iterator<Item = Row> + '_ {
    table.chunks_exact(ROW).map(Row::of)
}

/// Refusals 1 and 2 alone.
pub fn check_items(items: &[u32]) -> Result<(), Refusal> {
    check_length(1, items)?;
    check_rows(2, items, |row| row.keeps_rules())
}

/// 1: "item table length not a multiple of 4, or over 256", place 0; 2: "an
/// item row breaks its rules", "first such row"; 3, 4: "the same two for
/// literals". "Tables are then multiples of 5 and at most 320 numbers, which
/// amends refusals 1 to 4" (02, f). 18 comes "just after 4" (02, h).
pub fn check_tables(tables: &Tables) -> Result<(), Refusal> {
    check_items(tables.items)?;
    check_literals(tables)?;
    check_names(tables)
}

pub fn check_literals(tables: &Tables) -> Result<(), Refusal> {
    check_length(3, tables.literals)?;
    check_rows(4, tables.literals, |row| {
        row.keeps_literal_rules(tables.bytes)
    })
}

pub fn check_length(number: u32, table: &[u32]) -> Result<(), Refusal> {
    if !table.len().is_multiple_of(ROW) || table.len() > 64 * ROW {
        return refuse(number, 0);
    }
    Ok(())
}

pub fn check_rows(number: u32, table: &[u32], keeps: impl Fn(Row) -> bool) -> Result<(), Refusal> {
    match rows(table).position(|row| !keeps(row)) {
        Some(place) => refuse(number, place),
        None => Ok(()),
    }
}

/// 12: "the record ends before an item does, used or not", "first such row".
pub fn check_record(items: &[u32], record: &[u8]) -> Result<(), Refusal> {
    check_rows(12, items, |row| row.part(record).is_some())
}
