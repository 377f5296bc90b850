//! A whole file at once: `sweep`, written from the request and documents 01 and 02
//! alone. Comments in double quotes are the request's sentences.

pub mod case;
#[cfg(feature = "library")]
pub mod compare;
mod generate;
#[cfg(test)]
mod tests;

use crate::rules::plan::check_plan;
use crate::rules::tables::{check_record, check_tables};
use crate::rules::{self, check_room, Judged, Refusal, Tables};

/// "Records of one length laid one after another."
#[derive(Clone, Copy)]
pub struct File<'a> {
    pub bytes: &'a [u8],
    pub size: usize,
}

/// Numbers of a record's answer.
pub const ANSWER: usize = 4;

/// So many records have answers that a number can count.
pub const MOST_RECORDS: usize = 1_073_741_823;

/// "Runs one plan over records of one length"; "for each record run's whole answer
/// (number or truth, place, byte, count) stands in the answers".
pub fn sweep(
    tables: &Tables,
    plan: &[u32],
    file: File,
    switches: u8,
    answers: &mut [u32],
) -> Result<[u32; 1], Refusal> {
    let needed = ANSWER * check(tables, plan, file)?;
    check_room(answers.len(), needed)?;
    let records = file.bytes.chunks_exact(file.size);
    for (numbers, record) in answers.chunks_exact_mut(ANSWER).zip(records) {
        numbers.copy_from_slice(&answer_of(rules::run(tables, plan, record, switches)));
    }
    Ok([needed as u32])
}

/// "Tables, plan and length are checked once": 1 to 4, 18, 11, 21, 12. Gives the
/// number of records.
fn check(tables: &Tables, plan: &[u32], file: File) -> Result<usize, Refusal> {
    check_tables(tables)?;
    check_plan(tables, plan)?;
    let count = records_of(file)?;
    if let Some(record) = file.bytes.chunks_exact(file.size).next() {
        check_record(tables.items, record)?;
    }
    Ok(count)
}

/// "A length of 0 or one that does not divide the records is a refusal of its own."
fn records_of(file: File) -> Result<usize, Refusal> {
    let uneven = Err(Refusal::at(21, 0));
    if file.size == 0 || !file.bytes.len().is_multiple_of(file.size) {
        return uneven;
    }
    match file.bytes.len() / file.size {
        count if count <= MOST_RECORDS => Ok(count),
        _ => uneven,
    }
}

/// The truth or the refusal's number, its place and byte, the conditions judged.
fn answer_of(judged: Judged) -> [u32; ANSWER] {
    match judged.answer {
        Ok(truth) => [u32::from(truth), 0, 0, judged.count],
        Err(refusal) => [refusal.number, refusal.place, refusal.byte, judged.count],
    }
}
