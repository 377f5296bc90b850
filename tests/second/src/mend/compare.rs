//! The library's mend, called through its C interface, against this one:
//!
//! ```c
//! uint32_t oboecurlew_mend(const uint32_t *items, size_t item_numbers, uint8_t *record, size_t record_size,
//!                          uint32_t *changes, size_t change_numbers, oboecurlew_answer *answer);
//! ```

use super::case::Case;
use crate::answers::fresh_output;
use crate::comparison::{self, GUARDS};
use crate::outside::{of_written, Answer, Said};

extern "C" {
    fn oboecurlew_mend(
        items: *const u32,
        n_items: usize,
        record: *mut u8,
        n_record: usize,
        changes: *mut u32,
        n_changes: usize,
        answer: *mut Answer,
    ) -> u32;
}

fn call(items: &[u32], record: &mut [u8], changes: &mut [u32]) -> Said {
    let mut answer = Answer::UNWRITTEN;
    // Slices give pointers that are never null and that match their lengths.
    let number = unsafe {
        oboecurlew_mend(
            items.as_ptr(),
            items.len(),
            record.as_mut_ptr(),
            record.len(),
            changes.as_mut_ptr(),
            changes.len(),
            &mut answer,
        )
    };
    (number, answer)
}

/// Compares so many cases and gives the number of those that differ.
pub fn compare(seed: u64, count: u64) -> u64 {
    comparison::compare("record", seed, count, differences)
}

fn differences(case: &Case) -> Vec<String> {
    let expected = case.answer();
    let items = case.items.clone();
    let mut record = case.record.clone();
    let mut changes = fresh_output(case.room + GUARDS);
    let said = call(&items, &mut record, &mut changes[..case.room]);
    let mut found = Vec::new();
    comparison::answers("mend", said, of_written(expected.result), &mut found);
    comparison::numbers("changes", &changes, &expected.changes, &mut found);
    if record != expected.record {
        found.push(format!(
            "record: library \"{}\", here \"{}\"",
            record.escape_ascii(),
            expected.record.escape_ascii()
        ));
    }
    if items != case.items {
        found.push("the library changed what it was lent".to_string());
    }
    found
}
