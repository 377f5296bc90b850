//! What document 02, k) says, and what random cases hold.

use super::*;
use crate::rules::{VERDICT_FALSE, VERDICT_TRUE};
use crate::subject::{check_stored, Subject};
use case::Case;
use std::collections::HashSet;

/// a of two digits, a group over all, b a character; then a byte of no item and c.
const ITEMS: [u32; 20] = [3, 0, 2, 0, 2, 0, 0, 5, 0, 0, 2, 2, 1, 0, 0, 1, 4, 1, 0, 0];

/// a = a, by its digits: true, or 13 where they are none.
const A_EQUALS_A: [u32; 5] = [0, 7, 0, VERDICT_TRUE, VERDICT_FALSE];
const SWITCH: [u32; 5] = [131_072, 0, 0, VERDICT_TRUE, VERDICT_FALSE];

fn tables() -> Tables<'static> {
    Tables {
        items: &ITEMS,
        ..Tables::default()
    }
}

fn merged(plan: &[u32], copies: [&[u8]; 3], switches: u8) -> (Vec<u8>, Vec<u32>) {
    let [old, first, second] = copies;
    let copies = Copies { old, first, second };
    let (mut record, mut list) = (vec![7; 9], vec![7; 5]);
    let counts = merge(&tables(), plan, copies, switches, &mut record, &mut list);
    let [bytes, rows] = counts.unwrap();
    assert!(record[bytes as usize..].iter().all(|&byte| byte == 7));
    assert!(list[rows as usize..].iter().all(|&number| number == 7));
    record.truncate(bytes as usize);
    list.truncate(rows as usize);
    (record, list)
}

fn check_merged(plan: &[u32], copies: [&[u8]; 3], switches: u8, record: &[u8], list: &[u32]) {
    let wanted = (record.to_vec(), list.to_vec());
    assert_eq!(merged(plan, copies, switches), wanted);
}

#[test]
fn one_side_and_alike() {
    let check = |first: &[u8], second: &[u8], record: &[u8]| {
        for [first, second] in [[first, second], [second, first]] {
            check_merged(&SWITCH, [b"12X*C", first, second], 0, record, &[]);
        }
    };
    check(b"12X*C", b"12X*C", b"12X*C");
    check(b"13X*C", b"12Y*C", b"13Y*C");
    check(b"13X*D", b"13Y*C", b"13Y*D");
    // Bytes in no elementary item stay old, also changed alike.
    check(b"12X+C", b"12X-C", b"12X*C");
    check(b"12X+C", b"12X+D", b"12X*D");
    // Behind the last item too.
    check_merged(
        &SWITCH,
        [b"12X*C1", b"12X*C2", b"12X*C2"],
        0,
        b"12X*C1",
        &[],
    );
}

#[test]
fn changed_apart() {
    let copies: [&[u8]; 3] = [b"12X*C", b"13Y+C", b"14Z-D"];
    check_merged(&SWITCH, copies, 0x80, b"13Y*D", &[]);
    check_merged(&SWITCH, copies, 0x7F, b"14Z*D", &[]);
    // The plan runs on the first copy.
    check_merged(&A_EQUALS_A, copies, 0, b"13Y*D", &[]);
    let copies: [&[u8]; 3] = [b"12X*C", b"1 Y*C", b"14Z*D"];
    check_merged(&A_EQUALS_A, copies, 0, b"12X*D", &[0, 2]);
    let copies: [&[u8]; 3] = [b"12X*C", b"14Y*D", b"1 Z*D"];
    check_merged(&A_EQUALS_A, copies, 0, b"14Y*D", &[]);
    // Nothing changed apart: a run that would stop contests nothing.
    let copies: [&[u8]; 3] = [b"12X*C", b"1 X*C", b"12Z*D"];
    check_merged(&A_EQUALS_A, copies, 0, b"1 Z*D", &[]);
}

#[test]
fn refusals_in_their_order() {
    let refused = |tables: &Tables, plan: &[u32], copies: [&[u8]; 3], rooms: [usize; 2]| {
        let (mut record, mut list) = (vec![7; rooms[0]], vec![7; rooms[1]]);
        let [old, first, second] = copies;
        let copies = Copies { old, first, second };
        let refusal = merge(tables, plan, copies, 0, &mut record, &mut list).unwrap_err();
        assert!(record.iter().all(|&byte| byte == 7) && list.iter().all(|&number| number == 7));
        (refusal.number, refusal.place)
    };
    let overlapping = [&ITEMS[..], &[2, 2, 2, 0, 0]].concat();
    let mut broken = Tables {
        items: &ITEMS[..19],
        literals: &[2, 0, 1, 0],
        bytes: b"",
        names: &[0; 17],
        ..Tables::default()
    };
    let unequal: [&[u8]; 3] = [b"12", b"1", b""];
    let none = [0, 0];
    assert_eq!(refused(&broken, &[], unequal, none), (1, 0));
    broken.items = &[3, 0, 0, 0, 0];
    assert_eq!(refused(&broken, &[], unequal, none), (2, 0));
    broken.items = &overlapping;
    assert_eq!(refused(&broken, &[], unequal, none), (3, 0));
    broken.literals = &[2, 0, 1, 0, 0];
    assert_eq!(refused(&broken, &[], unequal, none), (4, 0));
    broken.literals = &[];
    assert_eq!(refused(&broken, &[], unequal, none), (18, 0));
    broken.names = &[];
    assert_eq!(refused(&broken, &[], unequal, none), (19, 4));
    broken.items = &ITEMS;
    for copies in [[5, 5, 4], [5, 4, 5], [4, 5, 5]] {
        let copies = copies.map(|length| &b"12X*C"[..length]);
        assert_eq!(refused(&broken, &[], copies, none), (20, 0));
    }
    assert_eq!(refused(&broken, &[], [b"12X*"; 3], none), (11, 0));
    assert_eq!(refused(&broken, &SWITCH, [b"12X*"; 3], none), (12, 1));
    let copies: [&[u8]; 3] = [b"12X*C", b"1 Y*C", b"14Z*D"];
    assert_eq!(refused(&broken, &A_EQUALS_A, copies, [4, 0]), (10, 5));
    assert_eq!(refused(&broken, &A_EQUALS_A, copies, [5, 1]), (10, 2));
}

/// "Exchanging the copies changes nothing where no item was changed apart"; each
/// byte of the record comes from a copy; random cases hold every refusal, all
/// choices and contested rows.
#[test]
fn exchanged_copies_and_sorts_of_cases() {
    check_stored::<Case>();
    let mut refusals = HashSet::new();
    let mut seen = HashSet::new();
    let mut taken = HashSet::new();
    for index in 0..20_000 {
        let case = Case::case(67, index);
        let answer = case.answer();
        refusals.insert(answer.result.map_or_else(|refusal| refusal.number, |_| 0));
        let Ok([_, contested]) = answer.result else {
            continue;
        };
        let choices: Vec<Choice> = rows(&case.items)
            .filter(|row| !row.is_group())
            .map(|row| choice(&row, case.copies()))
            .collect();
        let exchanged = Case {
            first: case.second.clone(),
            second: case.first.clone(),
            ..case.clone()
        };
        let apart = choices.contains(&Choice::Apart);
        if !apart {
            assert_eq!(exchanged.answer().merged, answer.merged);
            assert_eq!(exchanged.answer().contested, answer.contested);
            assert_eq!(contested, 0);
        }
        for (place, byte) in answer.merged[..case.old.len()].iter().enumerate() {
            let copies = [&case.old, &case.first, &case.second];
            assert!(copies.iter().any(|copy| copy[place] == *byte));
        }
        let verdict = rules::run(&case.tables(), &case.plan, &case.first, case.switches).answer;
        seen.insert((apart, verdict.map_err(|refusal| refusal.number)));
        taken.extend(choices.iter().map(|choice| format!("{choice:?}")));
        assert_eq!(contested > 0, apart && verdict.is_err());
    }
    assert_eq!(taken.len(), 4);
    assert_eq!(
        refusals,
        HashSet::from([0, 1, 2, 3, 4, 10, 11, 12, 18, 19, 20])
    );
    for apart in [false, true] {
        for verdict in [Ok(true), Ok(false), Err(13), Err(17)] {
            assert!(seen.contains(&(apart, verdict)), "{apart} {verdict:?}");
        }
    }
}
