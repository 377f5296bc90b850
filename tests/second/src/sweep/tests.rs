//! What the request says, and what random cases hold.

use super::*;
use crate::rules::tables::rows;
use crate::rules::{VERDICT_FALSE, VERDICT_TRUE};
use crate::subject::{check_stored, Subject};
use case::Case;
use std::collections::HashSet;

/// a of two digits, b a letter, and a group over both.
const ITEMS: [u32; 15] = [3, 0, 2, 0, 2, 1, 2, 1, 0, 0, 0, 0, 3, 0, 0];
const LITERALS: [u32; 10] = [3, 0, 2, 0, 2, 2, 2, 1, 0, 0];
const BYTES: &[u8] = b"50M";

/// a > 50 OR b = "M".
const PLAN: [u32; 10] = [
    0,
    5,
    65_536,
    VERDICT_TRUE,
    1,
    1,
    7,
    65_537,
    VERDICT_TRUE,
    VERDICT_FALSE,
];

fn tables() -> Tables<'static> {
    Tables {
        items: &ITEMS,
        literals: &LITERALS,
        bytes: BYTES,
        ..Tables::default()
    }
}

fn swept(bytes: &[u8], size: usize) -> Vec<u32> {
    let mut answers = vec![7; 60];
    let [count] = sweep(&tables(), &PLAN, File { bytes, size }, 0, &mut answers).unwrap();
    assert!(answers[count as usize..].iter().all(|&number| number == 7));
    answers.truncate(count as usize);
    answers
}

#[test]
fn four_numbers_for_each_record() {
    assert_eq!(swept(b"51M", 3), [1, 0, 0, 1]);
    assert_eq!(swept(b"50M", 3), [1, 0, 0, 2]);
    assert_eq!(swept(b"50N", 3), [0, 0, 0, 2]);
    assert_eq!(swept(b" 1M", 3), [13, 0, 0, 1]);
    assert_eq!(swept(b"1 M", 3), [13, 0, 1, 1]);
    assert_eq!(swept(b"499", 3), [17, 1, 2, 2]);
    let answers = [
        [1, 0, 0, 1],
        [17, 1, 2, 2],
        [13, 0, 1, 1],
        [0, 0, 0, 2],
        [1, 0, 0, 2],
    ];
    assert_eq!(swept(b"99 4991 M00 00M", 3), answers.concat());
    // A byte of no item behind each.
    assert_eq!(swept(b"51M*499*", 4), [1, 0, 0, 1, 17, 1, 2, 2]);
}

#[test]
fn no_records() {
    for size in [1, 2, 3, 4, usize::MAX] {
        assert_eq!(swept(b"", size), []);
    }
}

#[test]
fn switches_are_the_same_for_all() {
    let plan = [131_072, 0, 0, VERDICT_TRUE, VERDICT_FALSE];
    let file = File {
        bytes: b"12X34Y",
        size: 3,
    };
    for (switches, truth) in [(0x80, 1), (0x7F, 0)] {
        let mut answers = [7; 8];
        let counted = sweep(&tables(), &plan, file, switches, &mut answers);
        assert_eq!(counted, Ok([8]));
        assert_eq!(answers, [truth, 0, 0, 1, truth, 0, 0, 1]);
    }
}

#[test]
fn refusals_in_their_order() {
    let refused = |tables: &Tables, plan: &[u32], bytes: &[u8], size, room| {
        let mut answers = vec![7; room];
        let refusal = sweep(tables, plan, File { bytes, size }, 0, &mut answers).unwrap_err();
        assert!(answers.iter().all(|&number| number == 7));
        (refusal.number, refusal.place)
    };
    let mut broken = Tables {
        items: &ITEMS[..14],
        literals: &[2, 0, 1, 0],
        bytes: b"",
        names: &[0; 17],
        ..Tables::default()
    };
    assert_eq!(refused(&broken, &[], b"12", 0, 0), (1, 0));
    broken.items = &[3, 0, 0, 0, 0];
    assert_eq!(refused(&broken, &[], b"12", 0, 0), (2, 0));
    broken.items = &ITEMS;
    assert_eq!(refused(&broken, &[], b"12", 0, 0), (3, 0));
    broken.literals = &[2, 0, 1, 0, 0];
    assert_eq!(refused(&broken, &[], b"12", 0, 0), (4, 0));
    broken.literals = &[];
    assert_eq!(refused(&broken, &[], b"12", 0, 0), (18, 0));
    let sound = tables();
    assert_eq!(refused(&sound, &[], b"12", 0, 0), (11, 0));
    assert_eq!(refused(&sound, &PLAN, b"12", 0, 0), (21, 0));
    assert_eq!(refused(&sound, &PLAN, b"", 0, 0), (21, 0));
    assert_eq!(refused(&sound, &PLAN, b"12M4", 3, 0), (21, 0));
    assert_eq!(refused(&sound, &PLAN, b"12", 3, 0), (21, 0));
    assert_eq!(refused(&sound, &PLAN, b"12", usize::MAX, 0), (21, 0));
    assert_eq!(refused(&sound, &PLAN, b"1234", 2, 0), (12, 1));
    assert_eq!(refused(&sound, &PLAN, b"1234", 1, 0), (12, 0));
    assert_eq!(refused(&sound, &PLAN, b"12M34N", 3, 7), (10, 8));
    assert_eq!(refused(&sound, &PLAN, b"12M34N", 3, 0), (10, 8));
    assert_eq!(refused(&sound, &PLAN, b"12M34N", 6, 3), (10, 4));
}

/// The bytes are never read.
#[test]
fn most_records() {
    let bytes = vec![0; MOST_RECORDS + 1];
    let plan = [131_072, 0, 0, VERDICT_TRUE, VERDICT_FALSE];
    let swept = |bytes| {
        sweep(
            &Tables::default(),
            &plan,
            File { bytes, size: 1 },
            0,
            &mut [],
        )
    };
    assert_eq!(swept(&bytes), Err(Refusal::at(21, 0)));
    let needed = 4_294_967_292;
    assert_eq!(swept(&bytes[1..]), Err(Refusal::at(10, needed)));
}

/// Random cases hold every refusal, every sort of answer in first and last records,
/// numbers of records around 64, and faults at every place of a number.
#[test]
fn sorts_of_cases() {
    check_stored::<Case>();
    let mut refusals = HashSet::new();
    let mut counts = HashSet::new();
    let mut first = HashSet::new();
    let mut last = HashSet::new();
    let mut faults = HashSet::new();
    for index in 0..20_000 {
        let case = Case::case(71, index);
        let answer = case.answer();
        refusals.insert(answer.result.map_or_else(|refusal| refusal.number, |_| 0));
        let Ok([numbers]) = answer.result else {
            assert_eq!(answer.answers, crate::answers::fresh_output(case.room));
            continue;
        };
        let answers: Vec<&[u32]> = answer.answers[..numbers as usize].chunks(ANSWER).collect();
        assert_eq!(answers.len() * case.size, case.file.len());
        counts.insert(answers.len());
        first.extend(answers.first().map(|answer| answer[0]));
        last.extend(answers.last().map(|answer| answer[0]));
        for row in rows(&case.items).filter(|row| row.kind == 3) {
            let inside = |answer: &&&[u32]| row.bytes().contains(&(answer[2] as usize));
            let stops = answers.iter().filter(|answer| answer[0] == 13);
            faults.extend(stops.filter(inside).map(|answer| answer[2] - row.offset));
        }
    }
    let all = [0, 1, 2, 3, 4, 10, 11, 12, 18, 21];
    assert_eq!(refusals, HashSet::from(all));
    for count in [0, 1, 2, 63, 64, 65, 127, 128, 129] {
        assert!(counts.contains(&count), "{count} records");
    }
    assert!(counts.iter().any(|&count| count > 500));
    assert_eq!(first, HashSet::from([0, 1, 13, 17]));
    assert_eq!(last, HashSet::from([0, 1, 13, 17]));
    assert_eq!(faults, (0..18).collect());
}
