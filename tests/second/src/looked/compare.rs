//! What the library says that a rule looks at, called through its C interface,
//! against this, and its answers on another record that agrees on that:
//!
//! ```c
//! uint32_t oboecurlew_looked_at(const uint32_t *items, size_t item_numbers, const uint32_t *literals,
//!                               size_t literal_numbers, const uint8_t *bytes, size_t byte_count, const uint32_t *names,
//!                               size_t name_numbers, const uint32_t *tokens, size_t token_count, const uint8_t *record,
//!                               size_t record_size, uint8_t switches, uint32_t *rows, size_t row_numbers,
//!                               oboecurlew_answer *answer);
//! ```
//!
//! `oboecurlew_looked_at_plan` has a plan in place of the tokens;
//! `oboecurlew_named_items` has neither record nor switch byte.

use super::case::{Case, Listed};
use crate::answers::fresh_output;
use crate::case::Case as Lent;
use crate::compare::{judge, Judging};
use crate::comparison::{self, GUARDS};
use crate::outside::{of_written, Answer, Said};

extern "C" {
    fn oboecurlew_looked_at(
        items: *const u32,
        n_items: usize,
        literals: *const u32,
        n_literals: usize,
        bytes: *const u8,
        n_bytes: usize,
        names: *const u32,
        n_names: usize,
        tokens: *const u32,
        n_tokens: usize,
        record: *const u8,
        n_record: usize,
        switches: u8,
        rows: *mut u32,
        n_rows: usize,
        answer: *mut Answer,
    ) -> u32;
    fn oboecurlew_looked_at_plan(
        items: *const u32,
        n_items: usize,
        literals: *const u32,
        n_literals: usize,
        bytes: *const u8,
        n_bytes: usize,
        names: *const u32,
        n_names: usize,
        plan: *const u32,
        n_plan: usize,
        record: *const u8,
        n_record: usize,
        switches: u8,
        rows: *mut u32,
        n_rows: usize,
        answer: *mut Answer,
    ) -> u32;
    fn oboecurlew_named_items(
        items: *const u32,
        n_items: usize,
        literals: *const u32,
        n_literals: usize,
        bytes: *const u8,
        n_bytes: usize,
        names: *const u32,
        n_names: usize,
        tokens: *const u32,
        n_tokens: usize,
        rows: *mut u32,
        n_rows: usize,
        answer: *mut Answer,
    ) -> u32;
}

/// Calls of looked_at and looked_at_plan have the same shape.
fn looked_at(call: Judging, lent: &Lent, rows: &mut [u32]) -> Said {
    let function = match call {
        Judging::Judge => oboecurlew_looked_at,
        Judging::Run => oboecurlew_looked_at_plan,
    };
    let numbers = match call {
        Judging::Judge => &lent.tokens,
        Judging::Run => &lent.plan,
    };
    let mut answer = Answer::UNWRITTEN;
    // Slices give pointers that are never null and that match their lengths.
    let number = unsafe {
        function(
            lent.items.as_ptr(),
            lent.items.len(),
            lent.literals.as_ptr(),
            lent.literals.len(),
            lent.bytes.as_ptr(),
            lent.bytes.len(),
            lent.names.as_ptr(),
            lent.names.len(),
            numbers.as_ptr(),
            numbers.len(),
            lent.record.as_ptr(),
            lent.record.len(),
            lent.switches,
            rows.as_mut_ptr(),
            rows.len(),
            &mut answer,
        )
    };
    (number, answer)
}

fn named_items(lent: &Lent, rows: &mut [u32]) -> Said {
    let mut answer = Answer::UNWRITTEN;
    // As above.
    let number = unsafe {
        oboecurlew_named_items(
            lent.items.as_ptr(),
            lent.items.len(),
            lent.literals.as_ptr(),
            lent.literals.len(),
            lent.bytes.as_ptr(),
            lent.bytes.len(),
            lent.names.as_ptr(),
            lent.names.len(),
            lent.tokens.as_ptr(),
            lent.tokens.len(),
            rows.as_mut_ptr(),
            rows.len(),
            &mut answer,
        )
    };
    (number, answer)
}

/// Compares so many cases and gives the number of those that differ.
pub fn compare(seed: u64, count: u64) -> u64 {
    comparison::compare("rule", seed, count, differences)
}

fn differences(case: &Case) -> Vec<String> {
    let expected = case.answer();
    let lent = case.lent.clone();
    let mut found = Vec::new();
    let calls: [(&str, fn(&Lent, &mut [u32]) -> Said); 3] = [
        ("looked at", |lent, rows| {
            looked_at(Judging::Judge, lent, rows)
        }),
        ("looked at by the plan", |lent, rows| {
            looked_at(Judging::Run, lent, rows)
        }),
        ("named items", named_items),
    ];
    for (place, (name, call)) in calls.into_iter().enumerate() {
        let Listed { result, rows } = &expected.lists[place];
        let room = case.rooms[place];
        let mut buffer = fresh_output(room + GUARDS);
        let said = call(&lent, &mut buffer[..room]);
        comparison::answers(name, said, of_written(*result), &mut found);
        comparison::numbers(name, &buffer, rows, &mut found);
    }
    compare_other_record(case, &lent, &mut found);
    if !expected.same_answers {
        found.push("the other record gives other answers by these rules".to_string());
    }
    if lent != case.lent {
        found.push("the library changed what it was lent".to_string());
    }
    found
}

/// The library's answers on both records.
fn compare_other_record(case: &Case, lent: &Lent, found: &mut Vec<String>) {
    let other = Lent {
        record: case.other.clone(),
        ..lent.clone()
    };
    for (name, call, numbers) in [
        ("judge on the other record", Judging::Judge, &lent.tokens),
        ("run on the other record", Judging::Run, &lent.plan),
    ] {
        let (said, wanted) = (judge(call, &other, numbers), judge(call, lent, numbers));
        comparison::answers(name, said, wanted, found);
    }
}
