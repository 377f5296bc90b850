//! What random texts hold, and what comes back.

use crate::rules::Refusal;
use crate::spelling::{condition, generate};
use std::collections::HashMap;

/// "What was read, printed in 2,048 bytes or fewer and read again, gives the same
/// tokens and literals."
#[test]
fn what_was_read_comes_back() {
    let mut came = 0;
    for index in 0..20_000 {
        let case = generate::case(47, index);
        assert!(case.answer().comes_back, "{case}");
        came += u32::from(condition(&case.description, &case.text).is_ok());
    }
    assert!(came > 7_000, "{came}");
}

/// Random cases hold every sort of answer.
#[test]
fn sorts_of_answers() {
    let mut seen: HashMap<(&str, u32), u32> = HashMap::new();
    let mut see = |what, number| *seen.entry((what, number)).or_default() += 1;
    for index in 0..20_000 {
        let case = generate::case(53, index);
        let answer = case.answer();
        let number = |result: Option<Refusal>| result.map_or(0, |refusal| refusal.number);
        see("read", number(answer.read.err()));
        see("print", number(answer.print.err()));
        let literals = answer.read.map_or(0, |counts| counts[1] / 5);
        let tokens = answer.read.map_or(0, |counts| counts[0]);
        see("literals", literals);
        see("tokens", tokens);
        match answer.read {
            Err(Refusal {
                number: 15,
                place: 2_048,
                ..
            }) => see("byte 2,048", 0),
            Err(Refusal {
                number: 10, place, ..
            }) => {
                let output = case.rooms.iter().position(|&room| room < place as usize);
                see("short", output.unwrap_or(9) as u32);
            }
            _ => {}
        }
    }
    for (what, number, least) in [
        ("read", 0, 5_000),
        ("read", 5, 300),
        ("read", 10, 500),
        ("read", 14, 300),
        ("read", 15, 3_000),
        ("read", 16, 500),
        ("print", 0, 5_000),
        ("print", 3, 30),
        ("print", 4, 100),
        ("print", 5, 200),
        ("print", 6, 300),
        ("print", 10, 500),
        ("print", 14, 300),
        ("print", 16, 300),
        ("literals", 64, 20),
        ("tokens", 256, 20),
        ("byte 2,048", 0, 100),
        ("short", 0, 200),
        ("short", 1, 40),
        ("short", 2, 40),
    ] {
        let found = seen.get(&(what, number)).copied().unwrap_or(0);
        assert!(found >= least, "{what} {number}: {found}");
    }
}
