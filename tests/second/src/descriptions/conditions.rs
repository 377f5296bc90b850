//! Name rows of level 88 entries and their literals, and what bars an entry: "what
//! 18 or 01's limits bar is a row limit passed: 14 at the entry" (02, h).

use super::values::Value;
use crate::literals::Literals;
use crate::rules::names::{check_names, NAME_ROW};
use crate::rules::Tables;

/// "Name rows, [...] literal rows and bytes" of the entries so far.
#[derive(Default)]
pub struct Conditions {
    pub names: Vec<u32>,
    pub literals: Literals,
}

/// "Each alone or with THRU and another": at most so many in a name row.
const MOST_VALUES: usize = 8;
const MOST_NAMES: usize = 64;

impl Conditions {
    /// Adds the entry's row, its item being the last of these rows, which keep
    /// their limits; None where that is barred.
    pub fn add(&mut self, text: &[u8], items: &[u32], values: &[Value]) -> Option<()> {
        let full = self.names.len() == MOST_NAMES * NAME_ROW;
        if full || values.len() > MOST_VALUES {
            return None;
        }
        let item = items.len() / 5 - 1;
        let mut row = vec![item as u32, values.len() as u32];
        for value in values {
            let low = self.literals.add(&text[value.low.clone()])?;
            let high = match &value.high {
                Some(high) => self.literals.add(&text[high.clone()])?,
                None => low,
            };
            row.extend([low, high].map(|token| token - 65_536));
        }
        row.resize(NAME_ROW, 0);
        self.names.extend(&row);
        // 18 says whether the values are in order and may be compared.
        let tables = Tables {
            items,
            literals: &self.literals.rows,
            bytes: &self.literals.bytes,
            names: &row,
            ..Tables::default()
        };
        check_names(&tables).ok()
    }
}
