//! What document 02, n) says, and what random cases hold.

use super::*;
use crate::rules::tokens::WORD;
use crate::rules::{VERDICT_FALSE, VERDICT_TRUE};
use crate::show::WORDS;
use crate::subject::{check_stored, Subject};
use case::Case;
use std::collections::HashSet;

/// a, b, c, d of two digits each, then e of letters.
const ITEMS: [u32; 25] = [
    3, 0, 2, 0, 2, 3, 2, 2, 0, 2, 3, 4, 2, 0, 2, 3, 6, 2, 0, 2, 1, 8, 1, 0, 0,
];
/// The name x: d is 5.
const NAMES: [u32; 18] = [3, 1, 0, 0, 0, 0, 0, 0, 0, 0, 0, 0, 0, 0, 0, 0, 0, 0];

fn tables() -> Tables<'static> {
    Tables {
        items: &ITEMS,
        literals: &[3, 0, 1, 0, 1],
        bytes: b"5",
        names: &NAMES,
        ..Tables::default()
    }
}

/// Items by letters, x the name, s switch 0, L the literal.
fn tokens(text: &str) -> Vec<u32> {
    let token = |word: &str| {
        if let Some(v) = WORDS.iter().position(|&known| known == word) {
            return WORD + v as u32;
        }
        match word {
            "x" => 5 * 65_536,
            "s" => 2 * 65_536,
            "L" => 65_536,
            _ => u32::from(word.as_bytes()[0] - b'a'),
        }
    };
    text.split(' ').map(token).collect()
}

/// What judging looks at, which the run of its plan looks at too, and what is named.
fn check(text: &str, record: &[u8; 9], looked: &[u32], named: &[u32]) {
    let (tables, tokens) = (tables(), tokens(text));
    let mut rows = [7; 6];
    let listed = |result: Result<[u32; 1], Refusal>, rows: &[u32]| {
        let [count] = result.unwrap();
        assert!(rows[count as usize..].iter().all(|&row| row == 7));
        rows[..count as usize].to_vec()
    };
    let result = looked_at(&tables, &tokens, record, 0, &mut rows);
    assert_eq!(listed(result, &rows), looked, "{text}");
    let mut plan = [0; 640];
    let count = crate::rules::plan(&tables, &tokens, &mut plan).unwrap() as usize;
    rows.fill(7);
    let result = looked_at_plan(&tables, &plan[..count], record, 0, &mut rows);
    assert_eq!(listed(result, &rows), looked, "{text}");
    rows.fill(7);
    let result = named_items(&tables, &tokens, &mut rows);
    assert_eq!(listed(result, &rows), named, "{text}");
}

#[test]
fn items_of_judged_conditions() {
    let record = b"01020304Z";
    check("a = b", record, &[0, 1], &[0, 1]);
    check("b = a", record, &[0, 1], &[0, 1]);
    check("a > b AND c = d", record, &[0, 1], &[0, 1, 2, 3]);
    check("a < b OR c = d", record, &[0, 1], &[0, 1, 2, 3]);
    // An omitted subject, a condition-name's item, literals and switches.
    check("c > a AND d", record, &[0, 2, 3], &[0, 2, 3]);
    check("x OR a = L", record, &[0, 3], &[0, 3]);
    check("s OR L < b", record, &[1], &[1]);
    check("s", record, &[], &[]);
    check("s AND a = b", record, &[], &[0, 1]);
    // An object of 0 in a class or sign row, or behind a name, is no item 0.
    check("b NUMERIC AND c ZERO OR x", record, &[1, 2, 3], &[1, 2, 3]);
    // All items of a condition that stops, whichever of them is wrong.
    let record = b"01 20304Z";
    check("b = c OR a = d", record, &[1, 2], &[0, 1, 2, 3]);
    check("c = b OR a = d", record, &[1, 2], &[0, 1, 2, 3]);
    check("x OR e = d", b"0102030 7", &[3], &[3, 4]);
    check("e = d", b"010203047", &[3, 4], &[3, 4]);
}

#[test]
fn refusals() {
    let (mut rows, record) = ([7; 3], b"01020304Z");
    let mut call = |tables: &Tables, text: &str, record: &[u8], room: usize| {
        let refusal = looked_at(tables, &tokens(text), record, 0, &mut rows[..room]).unwrap_err();
        assert_eq!(rows, [7; 3]);
        (refusal.number, refusal.place)
    };
    assert_eq!(call(&tables(), "a =", record, 3), (7, 2));
    assert_eq!(call(&tables(), "a = b", &record[..8], 3), (12, 4));
    assert_eq!(call(&tables(), "a = b", record, 1), (10, 2));
    let mut broken = tables();
    broken.names = &NAMES[1..];
    assert_eq!(call(&broken, "a =", record, 3), (18, 0));
    let mut rows = [7; 3];
    let refused = named_items(&broken, &[], &mut rows);
    assert_eq!(refused, Err(Refusal::at(18, 0)));
    // named_items has no record to be too short.
    assert_eq!(named_items(&tables(), &tokens("a = b"), &mut rows), Ok([2]));
    let refused = named_items(&tables(), &tokens("a = b"), &mut rows[..1]);
    assert_eq!(refused, Err(Refusal::at(10, 2)));
    let plan = [0, 7, 1, VERDICT_TRUE, VERDICT_FALSE];
    let mut run = |plan: &[u32], record: &[u8], room: usize| {
        let refused = looked_at_plan(&tables(), plan, record, 0, &mut rows[..room]);
        refused.map_err(|refusal| (refusal.number, refusal.place))
    };
    assert_eq!(run(&plan[..4], b"", 3), Err((11, 0)));
    assert_eq!(run(&plan, b"", 3), Err((12, 0)));
    assert_eq!(run(&plan, record, 1), Err((10, 2)));
    assert_eq!(run(&plan, record, 2), Ok([2]));
}

/// Records that agree on what is looked at give the same answers; what is looked at
/// is named; random cases hold every refusal, stops, and other records that differ.
#[test]
fn other_records() {
    check_stored::<Case>();
    let mut refusals = [HashSet::new(), HashSet::new(), HashSet::new()];
    let (mut differing, mut fewer, mut stops) = (0, 0, 0);
    for index in 0..20_000 {
        let case = Case::case(73, index);
        let answer = case.answer();
        assert!(answer.same_answers, "{case}");
        assert_eq!(case.lent.record.len(), case.other.len());
        for (seen, list) in refusals.iter_mut().zip(&answer.lists) {
            seen.insert(list.result.map_or_else(|refusal| refusal.number, |_| 0));
        }
        let [looked, _, named] = &answer.lists;
        if let (Ok([looked_at]), Ok([named_items])) = (looked.result, named.result) {
            let names = &named.rows[..named_items as usize];
            let rows = &looked.rows[..looked_at as usize];
            assert!(rows.iter().all(|row| names.contains(row)));
            assert!(names.windows(2).all(|pair| pair[0] < pair[1]));
            differing += u32::from(case.lent.record != case.other);
            fewer += u32::from(looked_at < named_items);
            let Case { lent, .. } = &case;
            let judged =
                crate::rules::judge(&lent.tables(), &lent.tokens, &lent.record, lent.switches);
            stops += u32::from(judged.answer.is_err());
        }
    }
    let of_conditions = [0, 1, 2, 3, 4, 18, 5, 6, 7, 8, 9, 10];
    let mut with_record = HashSet::from(of_conditions);
    with_record.insert(12);
    assert_eq!(refusals[0], with_record);
    assert_eq!(refusals[1], HashSet::from([0, 1, 2, 3, 4, 18, 11, 12, 10]));
    assert_eq!(refusals[2], HashSet::from(of_conditions));
    assert!(differing > 5_000 && fewer > 1_000 && stops > 500);
}
