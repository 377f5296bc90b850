//! The library's reader, called through its C interface, against this one:
//!
//! ```c
//! uint32_t oboecurlew_describe(const uint8_t *text, size_t text_size, uint32_t *rows, size_t row_numbers,
//!                              uint32_t *places, size_t place_count, uint32_t *names, size_t name_numbers,
//!                              uint32_t *name_places, size_t name_place_count, uint32_t *literals,
//!                              size_t literal_numbers, uint8_t *bytes, size_t byte_count, oboecurlew_answer *answer);
//! ```

use super::case::Case;
use crate::answers::{fresh_bytes, fresh_output};
use crate::comparison::{self, GUARDS};
use crate::outside::{of_written, Answer, Said};

extern "C" {
    fn oboecurlew_describe(
        text: *const u8,
        n_text: usize,
        rows: *mut u32,
        n_rows: usize,
        places: *mut u32,
        n_places: usize,
        names: *mut u32,
        n_names: usize,
        name_places: *mut u32,
        n_name_places: usize,
        literals: *mut u32,
        n_literals: usize,
        bytes: *mut u8,
        n_bytes: usize,
        answer: *mut Answer,
    ) -> u32;
}

fn call(text: &[u8], numbers: [&mut [u32]; 5], bytes: &mut [u8]) -> Said {
    let mut answer = Answer::UNWRITTEN;
    let [rows, places, names, name_places, literals] = numbers;
    // Slices give pointers that are never null and that match their lengths.
    let number = unsafe {
        oboecurlew_describe(
            text.as_ptr(),
            text.len(),
            rows.as_mut_ptr(),
            rows.len(),
            places.as_mut_ptr(),
            places.len(),
            names.as_mut_ptr(),
            names.len(),
            name_places.as_mut_ptr(),
            name_places.len(),
            literals.as_mut_ptr(),
            literals.len(),
            bytes.as_mut_ptr(),
            bytes.len(),
            &mut answer,
        )
    };
    (number, answer)
}

/// Compares so many cases and gives the number of those that differ.
pub fn compare(seed: u64, count: u64) -> u64 {
    comparison::compare("description", seed, count, differences)
}

const OUTPUTS: [&str; 5] = ["rows", "places", "names", "name places", "literals"];

/// Everything in which the library and this reader differ on a case.
fn differences(case: &Case) -> Vec<String> {
    let expected = case.answer();
    let lent = case.text.clone();
    let [rooms @ .., byte_room] = case.rooms;
    let mut numbers = rooms.map(|room| fresh_output(room + GUARDS));
    let mut bytes = fresh_bytes(byte_room + GUARDS);
    let mut places = 0..;
    let outputs = numbers.each_mut().map(|output| {
        let room = rooms[places.next().unwrap_or(0)];
        &mut output[..room]
    });
    let said = call(&lent, outputs, &mut bytes[..byte_room]);
    let mut found = Vec::new();
    comparison::answers("describe", said, of_written(expected.result), &mut found);
    for (place, name) in OUTPUTS.into_iter().enumerate() {
        comparison::numbers(name, &numbers[place], &expected.numbers[place], &mut found);
    }
    comparison::bytes("literal bytes", &bytes, &expected.bytes, &mut found);
    if lent != case.text {
        found.push("the library changed what it was lent".to_string());
    }
    found
}
