//! The merge desk (02, k), written from document 02 alone.

pub mod case;
#[cfg(feature = "library")]
pub mod compare;
mod generate;
#[cfg(test)]
mod tests;

use crate::rules::apart::check_apart;
use crate::rules::plan::check_plan;
use crate::rules::tables::{check_record, check_tables, rows, Row};
use crate::rules::{self, check_room, Refusal, Tables};

/// "The copy two members began from, a first and a second copy."
#[derive(Clone, Copy)]
pub struct Copies<'a> {
    pub old: &'a [u8],
    pub first: &'a [u8],
    pub second: &'a [u8],
}

/// What an item takes.
#[derive(Clone, Copy, Debug, PartialEq, Eq)]
enum Choice {
    /// No side changed it, or it is contested.
    Old,
    First,
    Second,
    /// "Changed apart, a plan run on the first copy decides".
    Apart,
}

/// Writes the merged record, and "its row number is listed as contested, in row
/// order, in a second output after the merged record". "The order is 1 to 4, 18,
/// 19, 20, 11, 12, then 10 for room; each refuses the merge whole."
pub fn merge(
    tables: &Tables,
    plan: &[u32],
    copies: Copies,
    switches: u8,
    merged: &mut [u8],
    contested: &mut [u32],
) -> Result<[u32; 2], Refusal> {
    check(tables, plan, copies)?;
    let (record, rows) = decided(tables, plan, copies, switches);
    check_room(merged.len(), record.len())?;
    check_room(contested.len(), rows.len())?;
    merged[..record.len()].copy_from_slice(&record);
    contested[..rows.len()].copy_from_slice(&rows);
    Ok([record.len() as u32, rows.len() as u32])
}

/// 1 to 4, 18, 19; "records of unequal length with 20 at 0"; 11, 12.
fn check(tables: &Tables, plan: &[u32], copies: Copies) -> Result<(), Refusal> {
    check_tables(tables)?;
    check_apart(tables.items)?;
    let length = copies.old.len();
    if copies.first.len() != length || copies.second.len() != length {
        return Err(Refusal::at(20, 0));
    }
    check_plan(tables, plan)?;
    check_record(tables.items, copies.old)
}

/// "Each elementary item that one side changed takes that side's bytes; changed
/// alike, those".
fn choice(row: &Row, copies: Copies) -> Choice {
    let [old, first, second] =
        [copies.old, copies.first, copies.second].map(|copy| &copy[row.bytes()]);
    match (first == old, second == old) {
        (true, true) => Choice::Old,
        (false, true) => Choice::First,
        (true, false) => Choice::Second,
        (false, false) if first == second => Choice::First,
        (false, false) => Choice::Apart,
    }
}

/// The merged record and the contested rows. "True for the first and false for the
/// second. If the run refuses, the item keeps its old bytes". "Bytes in no
/// elementary item stay old."
fn decided(tables: &Tables, plan: &[u32], copies: Copies, switches: u8) -> (Vec<u8>, Vec<u32>) {
    let verdict = rules::run(tables, plan, copies.first, switches).answer;
    let mut record = copies.old.to_vec();
    let mut contested = Vec::new();
    for (number, row) in (0..).zip(rows(tables.items)) {
        if row.is_group() {
            continue;
        }
        let taken = match choice(&row, copies) {
            Choice::Apart => match verdict {
                Ok(true) => Choice::First,
                Ok(false) => Choice::Second,
                Err(_) => {
                    contested.push(number);
                    Choice::Old
                }
            },
            settled => settled,
        };
        let from = match taken {
            Choice::First => copies.first,
            Choice::Second => copies.second,
            Choice::Old | Choice::Apart => copies.old,
        };
        record[row.bytes()].copy_from_slice(&from[row.bytes()]);
    }
    (record, contested)
}
