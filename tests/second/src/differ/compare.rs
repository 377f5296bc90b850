//! The library's differ, called through its C interface, against this one:
//!
//! ```c
//! uint32_t oboecurlew_differ(const uint32_t *items, size_t item_numbers, const uint8_t *first, size_t first_size,
//!                            const uint8_t *second, size_t second_size, uint32_t *output, size_t output_numbers,
//!                            oboecurlew_answer *answer);
//! ```

use super::case::Case;
use crate::answers::fresh_output;
use crate::comparison::{self, GUARDS};
use crate::outside::{of_written, Answer, Said};

extern "C" {
    fn oboecurlew_differ(
        items: *const u32,
        n_items: usize,
        first: *const u8,
        n_first: usize,
        second: *const u8,
        n_second: usize,
        output: *mut u32,
        n_output: usize,
        answer: *mut Answer,
    ) -> u32;
}

fn call(case: &Case, output: &mut [u32]) -> Said {
    let mut answer = Answer::UNWRITTEN;
    // Slices give pointers that are never null and that match their lengths.
    let number = unsafe {
        oboecurlew_differ(
            case.items.as_ptr(),
            case.items.len(),
            case.first.as_ptr(),
            case.first.len(),
            case.second.as_ptr(),
            case.second.len(),
            output.as_mut_ptr(),
            output.len(),
            &mut answer,
        )
    };
    (number, answer)
}

/// Compares so many cases and gives the number of those that differ.
pub fn compare(seed: u64, count: u64) -> u64 {
    comparison::compare("pair", seed, count, differences)
}

fn differences(case: &Case) -> Vec<String> {
    let expected = case.answer();
    let lent = case.clone();
    let mut buffer = fresh_output(case.room + GUARDS);
    let said = call(&lent, &mut buffer[..case.room]);
    let mut found = Vec::new();
    comparison::answers("differ", said, of_written(expected.result), &mut found);
    comparison::numbers("marks", &buffer, &expected.output, &mut found);
    if lent != *case {
        found.push("the library changed what it was lent".to_string());
    }
    found
}
