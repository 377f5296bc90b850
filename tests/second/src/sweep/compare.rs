//! The library's sweep, called through its C interface, against this one, and against
//! the library's own run on each record:
//!
//! ```c
//! uint32_t oboecurlew_sweep(const uint32_t *items, size_t item_numbers, const uint32_t *literals, size_t literal_numbers,
//!                           const uint8_t *bytes, size_t byte_count, const uint32_t *names, size_t name_numbers,
//!                           const uint32_t *plan, size_t plan_numbers, const uint8_t *records, size_t record_bytes,
//!                           size_t size, uint8_t switches, uint32_t *answers, size_t answer_numbers,
//!                           oboecurlew_answer *answer);
//! ```

use super::case::Case;
use super::generate::long_file;
use super::{ANSWER, MOST_RECORDS};
use crate::answers::fresh_output;
use crate::case::Case as Lent;
use crate::compare::{judge, Judging};
use crate::comparison::{self, GUARDS};
use crate::outside::{of_written, Answer, Said};
use crate::rules::{VERDICT_FALSE, VERDICT_TRUE};

extern "C" {
    fn oboecurlew_sweep(
        items: *const u32,
        n_items: usize,
        literals: *const u32,
        n_literals: usize,
        bytes: *const u8,
        n_bytes: usize,
        names: *const u32,
        n_names: usize,
        plan: *const u32,
        n_plan: usize,
        records: *const u8,
        n_records: usize,
        size: usize,
        switches: u8,
        answers: *mut u32,
        n_answers: usize,
        answer: *mut Answer,
    ) -> u32;
}

fn call(case: &Case, answers: &mut [u32]) -> Said {
    let mut answer = Answer::UNWRITTEN;
    // Slices give pointers that are never null and that match their lengths.
    let number = unsafe {
        oboecurlew_sweep(
            case.items.as_ptr(),
            case.items.len(),
            case.literals.as_ptr(),
            case.literals.len(),
            case.bytes.as_ptr(),
            case.bytes.len(),
            case.names.as_ptr(),
            case.names.len(),
            case.plan.as_ptr(),
            case.plan.len(),
            case.file.as_ptr(),
            case.file.len(),
            case.size,
            case.switches,
            answers.as_mut_ptr(),
            answers.len(),
            &mut answer,
        )
    };
    (number, answer)
}

/// Records of the long file.
const LONG: usize = 1_000_001;

/// Compares so many cases, a long file, and files at the limit of records. Gives the
/// number of those that differ.
pub fn compare(seed: u64, count: u64) -> u64 {
    let mut records = 0;
    let mut differences = |case: &Case| {
        let mut found = differences(case);
        records += compare_with_run(case, &mut found);
        found
    };
    let mut differing = comparison::compare("file", seed, count, &mut differences);
    let others = [
        ("long", differences(&long_file(seed, LONG))),
        ("longest", differing_answers(&at_the_limit(MOST_RECORDS))),
        (
            "too long",
            differing_answers(&at_the_limit(MOST_RECORDS + 1)),
        ),
    ];
    for (name, found) in others {
        if let Some(first) = found.first() {
            println!("the {name} file of seed {seed} differs: {first:.500}");
            differing += 1;
        }
    }
    println!("{records} records, each compared with run too");
    differing
}

fn differences(case: &Case) -> Vec<String> {
    let lent = case.clone();
    let mut found = differing_answers(&lent);
    if lent != *case {
        found.push("the library changed what it was lent".to_string());
    }
    found
}

fn differing_answers(case: &Case) -> Vec<String> {
    let expected = case.answer();
    let mut answers = fresh_output(case.room + GUARDS);
    let said = call(case, &mut answers[..case.room]);
    let mut found = Vec::new();
    comparison::answers("sweep", said, of_written(expected.result), &mut found);
    comparison::numbers("answers", &answers, &expected.answers, &mut found);
    found
}

/// The numbers that the library's sweep gives are those of its run on each record.
/// Gives how many records there were.
fn compare_with_run(case: &Case, found: &mut Vec<String>) -> usize {
    let mut answers = fresh_output(case.room);
    let (0, _) = call(case, &mut answers) else {
        return 0;
    };
    let mut lent = Lent {
        items: case.items.clone(),
        literals: case.literals.clone(),
        bytes: case.bytes.clone(),
        names: case.names.clone(),
        switches: case.switches,
        ..Lent::default()
    };
    let records = case.file.chunks_exact(case.size);
    let count = records.len();
    for (place, (record, numbers)) in records.zip(answers.chunks_exact(ANSWER)).enumerate() {
        lent.record.clear();
        lent.record.extend_from_slice(record);
        let said = judge(Judging::Run, &lent, &case.plan);
        if numbers_of(said) != numbers {
            found.push(format!("record {place}: sweep {numbers:?}, run {said:?}"));
        }
    }
    count
}

fn numbers_of((number, answer): Said) -> [u32; ANSWER] {
    match number {
        0 => [answer.value, 0, 0, answer.judged],
        _ => [number, answer.value, answer.byte, answer.judged],
    }
}

/// So many records of one byte, a switch to be judged, no room: their bytes are never
/// read.
fn at_the_limit(records: usize) -> Case {
    Case {
        plan: vec![131_072, 0, 0, VERDICT_TRUE, VERDICT_FALSE],
        file: vec![0; records],
        size: 1,
        ..Case::default()
    }
}
