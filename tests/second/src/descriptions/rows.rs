//! Rows of complete entries, and document 01's upper limits on them.

use super::entries::{Entry, Form};
use super::pictures;
use crate::big::Big;

/// A row before it is known to keep the limits.
#[derive(Clone, Debug)]
pub struct Row {
    kind: u32,
    offset: Big,
    size: Big,
    scale: Big,
    digits: Big,
}

/// One row for each item's entry, in their order; no other entry is given. "Levels 01 and 77 start at the next
/// free offset", and so does everything inside them.
pub fn rows(text: &[u8], entries: &[Entry]) -> Vec<Row> {
    let mut free = Big::default();
    let mut rows = Vec::new();
    for entry in entries {
        let row = match &entry.form {
            Form::Group => Row {
                kind: 7,
                offset: free.clone(),
                size: Big::default(),
                scale: Big::default(),
                digits: Big::default(),
            },
            Form::Elementary { kind, picture } => {
                elementary(*kind, &text[picture.clone()], free.clone())
            }
            Form::Condition { .. } => continue,
        };
        free = free.plus(&row.size);
        rows.push(row);
    }
    for group in 0..entries.len() {
        if matches!(entries[group].form, Form::Group) {
            let members = elementary_members(entries, group);
            let sum = |sum: Big, &place: &usize| sum.plus(&rows[place].size);
            rows[group].size = members.iter().fold(Big::default(), sum);
            let signed = members.iter().any(|&place| rows[place].is_signed());
            rows[group].kind = if signed { 0 } else { 7 };
        }
    }
    rows
}

/// A separate sign takes a byte of its own; of packed items "size is half the
/// digits, rounded down, plus 1" (02, f). Texts have no digits.
fn elementary(kind: u32, picture: &[u8], offset: Big) -> Row {
    let (count, scale) = pictures::measures(picture);
    let one = Big::from(1);
    let size = match kind {
        5 | 6 => count.plus(&one),
        8 | 9 => count.half().plus(&one),
        _ => count.clone(),
    };
    let digits = match kind {
        1 | 2 => Big::default(),
        _ => count,
    };
    Row {
        kind,
        offset,
        size,
        scale,
        digits,
    }
}

/// The elementary ones of a group's "complete members" at any depth: the entries
/// behind it up to the first whose level is not greater, or is 77.
fn elementary_members(entries: &[Entry], group: usize) -> Vec<usize> {
    let inside = |entry: &Entry| entry.level > entries[group].level && entry.level != 77;
    let members = (group + 1..entries.len()).take_while(|&place| inside(&entries[place]));
    members
        .filter(|&place| !matches!(entries[place].form, Form::Group))
        .collect()
}

/// A table's rows; one that is the 65th passes a limit.
pub const MOST_ROWS: usize = 64;

impl Row {
    /// Described with S: "kind 7, a group with no signed item at any depth [...].
    /// The reader of a) gives 7 where it holds and 0 otherwise" (02, b).
    fn is_signed(&self) -> bool {
        matches!(self.kind, 4..=6 | 8)
    }

    /// "Kind 0: size 1 to 65,535. Kinds 1, 2: size 1 to 256. Kinds 3, 4: size 1
    /// to 18. Kinds 5, 6: size 2 to 19. Offset at most 65,535." (01). The digit
    /// count is "1 to 18 for numeric kinds" (02, f), which bounds their sizes:
    /// 19 packed digits lie in as many bytes as 18. A scale is never above its
    /// digits.
    pub fn is_beyond_limits(&self) -> bool {
        let largest = match self.kind {
            1 | 2 => 256,
            _ => 65_535,
        };
        self.size > Big::from(largest)
            || self.digits > Big::from(18)
            || self.offset > Big::from(65_535)
    }

    /// Of a row within the limits.
    pub fn numbers(&self) -> [u32; 5] {
        let small = |number: &Big| number.small().expect("a row within the limits");
        [
            self.kind,
            small(&self.offset),
            small(&self.size),
            small(&self.scale),
            small(&self.digits),
        ]
    }
}
