//! The library's merge, called through its C interface, against this one:
//!
//! ```c
//! uint32_t oboecurlew_merge(const uint32_t *items, size_t item_numbers, const uint32_t *literals, size_t literal_numbers,
//!                           const uint8_t *bytes, size_t byte_count, const uint32_t *names, size_t name_numbers,
//!                           const uint32_t *plan, size_t plan_numbers, const uint8_t *old, size_t old_size,
//!                           const uint8_t *first, size_t first_size, const uint8_t *second, size_t second_size,
//!                           uint8_t switches, uint8_t *merged, size_t merged_size, uint32_t *contested,
//!                           size_t contested_numbers, oboecurlew_answer *answer);
//! ```

use super::case::Case;
use crate::answers::{fresh_bytes, fresh_output};
use crate::comparison::{self, GUARDS};
use crate::outside::{of_written, Answer, Said};

extern "C" {
    fn oboecurlew_merge(
        items: *const u32,
        n_items: usize,
        literals: *const u32,
        n_literals: usize,
        bytes: *const u8,
        n_bytes: usize,
        names: *const u32,
        n_names: usize,
        plan: *const u32,
        n_plan: usize,
        old: *const u8,
        n_old: usize,
        first: *const u8,
        n_first: usize,
        second: *const u8,
        n_second: usize,
        switches: u8,
        merged: *mut u8,
        n_merged: usize,
        contested: *mut u32,
        n_contested: usize,
        answer: *mut Answer,
    ) -> u32;
}

fn call(case: &Case, merged: &mut [u8], contested: &mut [u32]) -> Said {
    let mut answer = Answer::UNWRITTEN;
    // Slices give pointers that are never null and that match their lengths.
    let number = unsafe {
        oboecurlew_merge(
            case.items.as_ptr(),
            case.items.len(),
            case.literals.as_ptr(),
            case.literals.len(),
            case.bytes.as_ptr(),
            case.bytes.len(),
            case.names.as_ptr(),
            case.names.len(),
            case.plan.as_ptr(),
            case.plan.len(),
            case.old.as_ptr(),
            case.old.len(),
            case.first.as_ptr(),
            case.first.len(),
            case.second.as_ptr(),
            case.second.len(),
            case.switches,
            merged.as_mut_ptr(),
            merged.len(),
            contested.as_mut_ptr(),
            contested.len(),
            &mut answer,
        )
    };
    (number, answer)
}

/// Compares so many cases and gives the number of those that differ.
pub fn compare(seed: u64, count: u64) -> u64 {
    comparison::compare("merge", seed, count, differences)
}

fn differences(case: &Case) -> Vec<String> {
    let expected = case.answer();
    let lent = case.clone();
    let mut merged = fresh_bytes(case.record_room + GUARDS);
    let mut contested = fresh_output(case.list_room + GUARDS);
    let said = call(
        &lent,
        &mut merged[..case.record_room],
        &mut contested[..case.list_room],
    );
    let mut found = Vec::new();
    comparison::answers("merge", said, of_written(expected.result), &mut found);
    comparison::bytes("merged record", &merged, &expected.merged, &mut found);
    comparison::numbers("contested", &contested, &expected.contested, &mut found);
    if lent != *case {
        found.push("the library changed what it was lent".to_string());
    }
    found
}
