//! The library's converters, called through their C interface, against these, and
//! what it judges of a converted condition against the old rules:
//!
//! ```c
//! uint32_t oboecurlew_convert_condition(const uint32_t *items, size_t item_numbers, const uint32_t *literals,
//!                                       size_t literal_numbers, const uint8_t *bytes, size_t byte_count,
//!                                       const uint32_t *names, size_t name_numbers, const uint32_t *tokens,
//!                                       size_t token_count, uint32_t *output, size_t output_numbers,
//!                                       oboecurlew_answer *answer);
//! ```
//!
//! `oboecurlew_convert_plan` has a plan in place of the tokens.

use super::case::{Case, Converted};
use crate::answers::{fresh_output, ENOUGH};
use crate::case::Case as Lent;
use crate::compare::{judge, Judging};
use crate::comparison::{self, GUARDS};
use crate::outside::{of_judged, of_written, Answer, Said};
use crate::rules;

extern "C" {
    fn oboecurlew_convert_condition(
        items: *const u32,
        n_items: usize,
        literals: *const u32,
        n_literals: usize,
        bytes: *const u8,
        n_bytes: usize,
        names: *const u32,
        n_names: usize,
        tokens: *const u32,
        n_tokens: usize,
        output: *mut u32,
        n_output: usize,
        answer: *mut Answer,
    ) -> u32;
    fn oboecurlew_convert_plan(
        items: *const u32,
        n_items: usize,
        literals: *const u32,
        n_literals: usize,
        bytes: *const u8,
        n_bytes: usize,
        names: *const u32,
        n_names: usize,
        plan: *const u32,
        n_plan: usize,
        output: *mut u32,
        n_output: usize,
        answer: *mut Answer,
    ) -> u32;
}

#[derive(Clone, Copy)]
enum Converting {
    Condition,
    Plan,
}

fn convert(call: Converting, lent: &Lent, output: &mut [u32]) -> Said {
    let function = match call {
        Converting::Condition => oboecurlew_convert_condition,
        Converting::Plan => oboecurlew_convert_plan,
    };
    let numbers = match call {
        Converting::Condition => &lent.tokens,
        Converting::Plan => &lent.plan,
    };
    let mut answer = Answer::UNWRITTEN;
    // Slices give pointers that are never null and that match their lengths.
    let number = unsafe {
        function(
            lent.items.as_ptr(),
            lent.items.len(),
            lent.literals.as_ptr(),
            lent.literals.len(),
            lent.bytes.as_ptr(),
            lent.bytes.len(),
            lent.names.as_ptr(),
            lent.names.len(),
            numbers.as_ptr(),
            numbers.len(),
            output.as_mut_ptr(),
            output.len(),
            &mut answer,
        )
    };
    (number, answer)
}

/// Compares so many cases and gives the number of those that differ.
pub fn compare(seed: u64, count: u64) -> u64 {
    comparison::compare("conversion", seed, count, differences)
}

fn differences(case: &Case) -> Vec<String> {
    let expected = case.answer();
    let lent = case.lent.clone();
    let mut found = Vec::new();
    for (name, call, room, wanted) in [
        (
            "condition",
            Converting::Condition,
            lent.expand_room,
            &expected.condition,
        ),
        ("plan", Converting::Plan, lent.plan_room, &expected.plan),
    ] {
        let Converted { result, output } = wanted;
        let mut buffer = fresh_output(room + GUARDS);
        let said = convert(call, &lent, &mut buffer[..room]);
        comparison::answers(name, said, of_written(*result), &mut found);
        comparison::numbers(name, &buffer, output, &mut found);
    }
    compare_meaning(case, &lent, &mut found);
    if !expected.same_meaning {
        found.push("old and new meaning differ by these rules".to_string());
    }
    if lent != case.lent {
        found.push("the library changed what it was lent".to_string());
    }
    found
}

/// What the library gives for what it converted, against the old rules here.
fn compare_meaning(case: &Case, lent: &Lent, found: &mut Vec<String>) {
    let [old, _] = case.both_rules();
    let (record, switches) = (&lent.record, lent.switches);
    let judged = rules::judge(&old, &lent.tokens, record, switches);
    let ran = rules::run(&old, &lent.plan, record, switches);
    for (name, converting, judging, wanted) in [
        (
            "judged when converted",
            Converting::Condition,
            Judging::Judge,
            judged,
        ),
        ("run when converted", Converting::Plan, Judging::Run, ran),
    ] {
        let mut output = [0; ENOUGH];
        let (refused, answer) = convert(converting, lent, &mut output);
        let count = answer.written[0] as usize;
        if refused == 0 && count <= ENOUGH {
            let said = judge(judging, lent, &output[..count]);
            comparison::answers(name, said, of_judged(wanted), found);
        }
    }
}
