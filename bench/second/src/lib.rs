//! The second program's calls, with the parameters and the answers of `include/oboecurlew.h`.

use second::descriptions;
use second::outside::{of_judged, of_written, Answer, Said};
use second::rules::{self, Edition, Tables};
use std::slice::{from_raw_parts as lent, from_raw_parts_mut as lent_mut};

fn told(said: Said, answer: &mut Answer) -> u32 {
    *answer = said.1;
    said.0
}

/// # Safety
/// Each pointer has as many numbers as its length says; the answer may be written.
#[no_mangle]
pub unsafe extern "C" fn second_plan(
    items: *const u32,
    item_numbers: usize,
    literals: *const u32,
    literal_numbers: usize,
    bytes: *const u8,
    byte_count: usize,
    names: *const u32,
    name_numbers: usize,
    tokens: *const u32,
    token_count: usize,
    output: *mut u32,
    output_numbers: usize,
    answer: *mut Answer,
) -> u32 {
    let tables = Tables {
        items: lent(items, item_numbers),
        literals: lent(literals, literal_numbers),
        bytes: lent(bytes, byte_count),
        names: lent(names, name_numbers),
        edition: Edition::CURRENT,
    };
    let count = rules::plan(&tables, lent(tokens, token_count), lent_mut(output, output_numbers));
    told(of_written(count.map(|count| [count])), &mut *answer)
}

/// # Safety
/// As of `second_plan`.
#[no_mangle]
pub unsafe extern "C" fn second_judge(
    items: *const u32,
    item_numbers: usize,
    literals: *const u32,
    literal_numbers: usize,
    bytes: *const u8,
    byte_count: usize,
    names: *const u32,
    name_numbers: usize,
    tokens: *const u32,
    token_count: usize,
    record: *const u8,
    record_size: usize,
    switches: u8,
    answer: *mut Answer,
) -> u32 {
    let tables = Tables {
        items: lent(items, item_numbers),
        literals: lent(literals, literal_numbers),
        bytes: lent(bytes, byte_count),
        names: lent(names, name_numbers),
        edition: Edition::CURRENT,
    };
    let judged = rules::judge(&tables, lent(tokens, token_count), lent(record, record_size), switches);
    told(of_judged(judged), &mut *answer)
}

/// # Safety
/// As of `second_plan`.
#[no_mangle]
pub unsafe extern "C" fn second_run(
    items: *const u32,
    item_numbers: usize,
    literals: *const u32,
    literal_numbers: usize,
    bytes: *const u8,
    byte_count: usize,
    names: *const u32,
    name_numbers: usize,
    plan: *const u32,
    plan_numbers: usize,
    record: *const u8,
    record_size: usize,
    switches: u8,
    answer: *mut Answer,
) -> u32 {
    let tables = Tables {
        items: lent(items, item_numbers),
        literals: lent(literals, literal_numbers),
        bytes: lent(bytes, byte_count),
        names: lent(names, name_numbers),
        edition: Edition::CURRENT,
    };
    let judged = rules::run(&tables, lent(plan, plan_numbers), lent(record, record_size), switches);
    told(of_judged(judged), &mut *answer)
}

/// # Safety
/// As of `second_plan`.
#[no_mangle]
pub unsafe extern "C" fn second_describe(
    text: *const u8,
    text_size: usize,
    rows: *mut u32,
    row_numbers: usize,
    places: *mut u32,
    place_count: usize,
    names: *mut u32,
    name_numbers: usize,
    name_places: *mut u32,
    name_place_count: usize,
    literals: *mut u32,
    literal_numbers: usize,
    bytes: *mut u8,
    byte_count: usize,
    answer: *mut Answer,
) -> u32 {
    let outputs = descriptions::Outputs {
        numbers: [
            lent_mut(rows, row_numbers),
            lent_mut(places, place_count),
            lent_mut(names, name_numbers),
            lent_mut(name_places, name_place_count),
            lent_mut(literals, literal_numbers),
        ],
        bytes: lent_mut(bytes, byte_count),
    };
    let counts = descriptions::describe(lent(text, text_size), outputs);
    told(of_written(counts), &mut *answer)
}
