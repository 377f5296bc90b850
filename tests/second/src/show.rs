//! Cases in readable form.

use crate::case::Case;
use crate::rules::names::NAME_ROW;
use crate::rules::tables::ROW;
use std::fmt::{self, Write};

/// Document 01's words 0 to 16, relations as symbols.
pub const WORDS: [&str; 17] = [
    "(",
    ")",
    "NOT",
    "AND",
    "OR",
    ">",
    "<",
    "=",
    ">=",
    "<=",
    "NUMERIC",
    "ALPHABETIC",
    "ALPHABETIC-LOWER",
    "ALPHABETIC-UPPER",
    "POSITIVE",
    "NEGATIVE",
    "ZERO",
];

/// i0 is item row 0, l0 literal row 0, on0 and off0 switch 0, n0 name row 0.
pub fn token(number: u32) -> String {
    let v = number & 0xFFFF;
    match number >> 16 {
        0 => format!("i{v}"),
        1 => format!("l{v}"),
        2 => format!("on{v}"),
        3 => format!("off{v}"),
        4 if v < 17 => WORDS[v as usize].to_string(),
        5 => format!("n{v}"),
        _ => format!("<{number}>"),
    }
}

pub fn tokens(numbers: &[u32]) -> String {
    let shown: Vec<String> = numbers.iter().map(|&number| token(number)).collect();
    shown.join(" ")
}

/// Printable characters as they are, others as \xNN.
fn bytes(bytes: &[u8]) -> String {
    let mut text = String::new();
    for &byte in bytes {
        match byte {
            b'\\' => text.push_str("\\\\"),
            0x20..=0x7E => text.push(byte as char),
            _ => write!(text, "\\x{byte:02X}").unwrap(),
        }
    }
    text
}

/// Rows of a table with the bytes they name, where they lie inside.
pub fn show_rows(f: &mut fmt::Formatter, name: &str, table: &[u32], source: &[u8]) -> fmt::Result {
    writeln!(f, "{name}s: {} numbers", table.len())?;
    for (place, row) in table.chunks(ROW).enumerate() {
        write!(f, "  {name} {place}: {row:?}")?;
        if let &[_, offset, size, _, _] = row {
            let (start, size) = (offset as usize, size as usize);
            match source.get(start..start + size) {
                Some(part) => write!(f, " \"{}\"", bytes(&part[..part.len().min(300)]))?,
                None => write!(f, " not inside {} bytes", source.len())?,
            }
        }
        writeln!(f)?;
    }
    Ok(())
}

/// Rows of the name table, the zeros behind their values left out.
pub fn show_names(f: &mut fmt::Formatter, names: &[u32]) -> fmt::Result {
    writeln!(f, "names: {} numbers", names.len())?;
    for (place, row) in names.chunks(NAME_ROW).enumerate() {
        let used = row.iter().rposition(|&number| number != 0).unwrap_or(0);
        writeln!(f, "  name {place}: {:?} of {}", &row[..=used], row.len())?;
    }
    Ok(())
}

pub fn show_plan(f: &mut fmt::Formatter, plan: &[u32]) -> fmt::Result {
    writeln!(f, "plan: {} numbers", plan.len())?;
    for (place, row) in plan.chunks(5).enumerate() {
        writeln!(f, "  row {place}: {row:?}")?;
    }
    Ok(())
}

impl fmt::Display for Case {
    fn fmt(&self, f: &mut fmt::Formatter) -> fmt::Result {
        show_rows(f, "item", &self.items, &self.record)?;
        show_rows(f, "literal", &self.literals, &self.bytes)?;
        show_names(f, &self.names)?;
        writeln!(f, "{} tokens: {}", self.tokens.len(), tokens(&self.tokens))?;
        show_plan(f, &self.plan)?;
        writeln!(f, "record: {} bytes", self.record.len())?;
        writeln!(f, "switches: {:08b}", self.switches)?;
        let (expand, plan) = (self.expand_room, self.plan_room);
        writeln!(f, "room: expand {expand}, plan {plan}")
    }
}
