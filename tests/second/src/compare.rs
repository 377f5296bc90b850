//! The library, called through its C interface, against the rules.

use crate::answers::{self, fresh_output, Answers, Written, ENOUGH};
use crate::case::Case;
use crate::generate;
use crate::outside::{of_judged, of_written, Answer, Said};

extern "C" {
    fn oboecurlew_expand(
        items: *const u32,
        n_items: usize,
        literals: *const u32,
        n_literals: usize,
        bytes: *const u8,
        n_bytes: usize,
        names: *const u32,
        n_names: usize,
        tokens: *const u32,
        n_tokens: usize,
        output: *mut u32,
        n_output: usize,
        answer: *mut Answer,
    ) -> u32;
    fn oboecurlew_plan(
        items: *const u32,
        n_items: usize,
        literals: *const u32,
        n_literals: usize,
        bytes: *const u8,
        n_bytes: usize,
        names: *const u32,
        n_names: usize,
        tokens: *const u32,
        n_tokens: usize,
        output: *mut u32,
        n_output: usize,
        answer: *mut Answer,
    ) -> u32;
    fn oboecurlew_judge(
        items: *const u32,
        n_items: usize,
        literals: *const u32,
        n_literals: usize,
        bytes: *const u8,
        n_bytes: usize,
        names: *const u32,
        n_names: usize,
        tokens: *const u32,
        n_tokens: usize,
        record: *const u8,
        n_record: usize,
        switches: u8,
        answer: *mut Answer,
    ) -> u32;
    fn oboecurlew_run(
        items: *const u32,
        n_items: usize,
        literals: *const u32,
        n_literals: usize,
        bytes: *const u8,
        n_bytes: usize,
        names: *const u32,
        n_names: usize,
        plan: *const u32,
        n_plan: usize,
        record: *const u8,
        n_record: usize,
        switches: u8,
        answer: *mut Answer,
    ) -> u32;
}

/// Calls of expand and plan have the same shape.
#[derive(Clone, Copy)]
enum Writing {
    Expand,
    Plan,
}

fn write(call: Writing, case: &Case, tokens: &[u32], output: &mut [u32]) -> Said {
    let function = match call {
        Writing::Expand => oboecurlew_expand,
        Writing::Plan => oboecurlew_plan,
    };
    let mut answer = Answer::UNWRITTEN;
    // Slices give pointers that are never null and that match their lengths.
    let number = unsafe {
        function(
            case.items.as_ptr(),
            case.items.len(),
            case.literals.as_ptr(),
            case.literals.len(),
            case.bytes.as_ptr(),
            case.bytes.len(),
            case.names.as_ptr(),
            case.names.len(),
            tokens.as_ptr(),
            tokens.len(),
            output.as_mut_ptr(),
            output.len(),
            &mut answer,
        )
    };
    (number, answer)
}

/// Calls of judge and run have the same shape.
#[derive(Clone, Copy)]
pub enum Judging {
    Judge,
    Run,
}

pub fn judge(call: Judging, case: &Case, numbers: &[u32]) -> Said {
    let function = match call {
        Judging::Judge => oboecurlew_judge,
        Judging::Run => oboecurlew_run,
    };
    let mut answer = Answer::UNWRITTEN;
    // As above.
    let number = unsafe {
        function(
            case.items.as_ptr(),
            case.items.len(),
            case.literals.as_ptr(),
            case.literals.len(),
            case.bytes.as_ptr(),
            case.bytes.len(),
            case.names.as_ptr(),
            case.names.len(),
            numbers.as_ptr(),
            numbers.len(),
            case.record.as_ptr(),
            case.record.len(),
            case.switches,
            &mut answer,
        )
    };
    (number, answer)
}

/// Compares so many cases and gives the number of those that differ.
pub fn compare(seed: u64, count: u64) -> u64 {
    const BATCH: u64 = 1000;
    const PROGRESS: u64 = 50_000;
    const SHOWN: u64 = 5;
    let mut differing = 0;
    for start in (0..count).step_by(BATCH as usize) {
        let end = count.min(start + BATCH);
        let batch: Vec<Case> = (start..end).map(|i| generate::case(seed, i)).collect();
        for (index, case) in (start..end).zip(&batch) {
            let differences = differences(case);
            if !differences.is_empty() {
                differing += 1;
                if differing <= SHOWN {
                    show(seed, index, case, &differences);
                }
            }
        }
        if end.is_multiple_of(PROGRESS) {
            println!("{end} cases so far, {differing} differences");
        }
    }
    println!("{count} cases, {differing} differences");
    differing
}

fn show(seed: u64, index: u64, case: &Case, differences: &[String]) {
    println!("case {index} of seed {seed} differs");
    for difference in differences {
        println!("  {difference}");
    }
    println!("{case}");
}

/// Everything in which the library and the rules differ on a case.
fn differences(case: &Case) -> Vec<String> {
    let rules = answers::answer(case);
    let lent = case.clone();
    let mut found = Vec::new();
    compare_writing(Writing::Expand, &lent, &rules, &mut found);
    compare_writing(Writing::Plan, &lent, &rules, &mut found);
    compare_judging(&lent, &rules, &mut found);
    if let Err(broken) = demand_three(&lent) {
        found.push(format!("demand 3 through the library: {broken}"));
    }
    if !rules.demand_three {
        found.push("demand 3 by the rules is broken".to_string());
    }
    if lent != *case {
        found.push("the library changed what it was lent".to_string());
    }
    found
}

/// Compares the answer and the whole output, with guard numbers behind it.
fn compare_writing(call: Writing, lent: &Case, rules: &Answers, found: &mut Vec<String>) {
    const GUARDS: usize = 8;
    let (name, room, expected) = match call {
        Writing::Expand => ("expand", lent.expand_room, &rules.expand),
        Writing::Plan => ("plan", lent.plan_room, &rules.plan),
    };
    let Written { result, output } = expected;
    let fresh = fresh_output(room + GUARDS);
    let mut buffer = fresh.clone();
    let answer = write(call, lent, &lent.tokens, &mut buffer[..room]);
    let wanted = of_written(result.map(|count| [count]));
    if answer != wanted {
        found.push(format!("{name}: library {answer:?}, rules {wanted:?}"));
    }
    if buffer[..room] != output[..] {
        let written = &buffer[..room];
        found.push(format!(
            "{name} output: library {written:?}, rules {output:?}"
        ));
    }
    if buffer[room..] != fresh[room..] {
        found.push(format!("{name} wrote behind its output"));
    }
}

fn compare_judging(lent: &Case, rules: &Answers, found: &mut Vec<String>) {
    let calls = [
        ("judge", Judging::Judge, &lent.tokens, rules.judge),
        ("run", Judging::Run, &lent.plan, rules.run),
    ];
    for (name, call, numbers, expected) in calls {
        let (answer, wanted) = (judge(call, lent, numbers), of_judged(expected));
        if answer != wanted {
            found.push(format!("{name}: library {answer:?}, rules {wanted:?}"));
        }
    }
}

/// Demand 3 with the library's own calls: the run of its plan against its
/// judging, counts included, and the plan of its expanded form against its plan.
fn demand_three(lent: &Case) -> Result<(), String> {
    let mut output = [0; ENOUGH];
    let (refused, planned) = write(Writing::Plan, lent, &lent.tokens, &mut output);
    if refused != 0 {
        return Ok(());
    }
    let plan = part(&output, planned.written[0])?;
    let run = judge(Judging::Run, lent, plan);
    let judged = judge(Judging::Judge, lent, &lent.tokens);
    if run != judged {
        return Err(format!("run of the plan {run:?}, judge {judged:?}"));
    }
    let mut output = [0; ENOUGH];
    let (refused, written) = write(Writing::Expand, lent, &lent.tokens, &mut output);
    if refused != 0 {
        return Err(format!("expand refuses with {refused}, {written:?}"));
    }
    let length = written.written[0];
    let expanded = part(&output, length)?;
    if length > 256 {
        return Ok(());
    }
    let mut again = vec![0; plan.len()];
    let answer = write(Writing::Plan, lent, expanded, &mut again);
    if answer != (0, planned) || again != plan {
        return Err(format!("plan of the expanded form: {answer:?} {again:?}"));
    }
    Ok(())
}

fn part(output: &[u32], count: u32) -> Result<&[u32], String> {
    output
        .get(..count as usize)
        .ok_or(format!("a count of {count} numbers in {ENOUGH}"))
}
