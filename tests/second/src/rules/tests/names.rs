//! Condition-names (02, h): refusal 18, truth, stops and plans.

use super::*;
use crate::rules::names::NAME_ROW;

/// a of two digits, b of three characters, c letters, d packed with a scale, e a
/// group over a and b, f of digits with a scale.
const ITEMS: [u32; 30] = [
    3, 0, 2, 0, 2, 2, 2, 3, 0, 0, 1, 5, 2, 0, 0, 8, 7, 2, 1, 3, 0, 0, 5, 0, 0, 3, 9, 2, 1, 2,
];
/// 5, 10, -3, 2.5, "5", "B", "BA".
const LITERALS: [u32; 35] = [
    3, 0, 1, 0, 1, 3, 1, 2, 0, 2, 5, 3, 2, 0, 1, 3, 5, 2, 1, 2, 2, 0, 1, 0, 0, 2, 7, 1, 0, 0, 2, 7,
    2, 0, 0,
];
const BYTES: &[u8] = b"510-325BA";

fn row(begins: &[u32]) -> Vec<u32> {
    let mut row = begins.to_vec();
    row.resize(NAME_ROW, 0);
    row
}

fn with_names(names: &[u32]) -> Tables<'_> {
    Tables {
        items: &ITEMS,
        literals: &LITERALS,
        bytes: BYTES,
        names,
        ..Tables::default()
    }
}

fn refused(names: &[u32]) -> Option<(u32, u32)> {
    let judged = judge(&with_names(names), &tokens("p"), &[b'0'; 11], 0);
    let refusal = judged.answer.err()?;
    let plan = [131072, 0, 0, TRUE, FALSE];
    assert_eq!(run(&with_names(names), &plan, &[b'0'; 11], 0), judged);
    assert_eq!(judged.count, 0);
    Some((refusal.number, refusal.place))
}

#[test]
fn unsound_rows() {
    let fine = row(&[0, 1, 0, 0]);
    for bad in [
        &[6, 1, 0, 0][..],
        &[0, 0],
        &[0, 0, 1, 1],
        &[0, 9, 0, 0, 0, 0, 0, 0, 0, 0, 0, 0, 0, 0, 0, 0, 0, 0],
        &[0, u32::MAX, 0, 0],
        &[0, 0x8000_0001, 0, 0],
        &[0, 1, 7, 7],
        &[0, 1, 0, 7],
        &[0, 1, 0, 65_536],
        &[0, 1, 0, 0, 1],
        &[0, 1, 0, 0, 0, 0, 0, 0, 0, 0, 0, 0, 0, 0, 0, 0, 0, 1],
        &[0, 1, 1, 0],
        &[0, 2, 0, 1, 0, 2],
        &[0, 1, 0, 4],
        &[0, 1, 4, 1],
        &[1, 1, 6, 5],
        &[1, 1, 3, 3],
        &[2, 1, 5, 5, 3],
        &[3, 1, 4, 4],
        &[4, 1, 3, 3],
        &[5, 1, 5, 5],
    ] {
        let names = [&fine[..], &row(bad)].concat();
        assert_eq!(refused(&names), Some((18, 1)), "{bad:?}");
    }
    for good in [
        &[0, 1, 0, 1][..],
        &[0, 1, 2, 3],
        &[0, 1, 4, 4],
        &[0, 2, 0, 0, 4, 4],
        &[0, 8, 0, 0, 1, 1, 0, 0, 1, 1, 0, 0, 1, 1, 0, 0, 1, 1],
        &[1, 2, 5, 6, 0, 0],
        &[2, 1, 4, 6],
        &[3, 1, 2, 3],
        &[4, 2, 0, 0, 4, 5],
        &[5, 1, 3, 0],
    ] {
        assert_eq!(refused(&[&fine[..], &row(good)].concat()), None, "{good:?}");
    }
}

/// Numeric ends compare by value also where the item is a text.
#[test]
fn ends_by_their_own_kinds() {
    assert_eq!(refused(&row(&[1, 1, 0, 1])), None);
    assert_eq!(refused(&row(&[1, 1, 1, 0])), Some((18, 0)));
    assert_eq!(refused(&row(&[4, 1, 1, 0])), Some((18, 0)));
}

#[test]
fn unfit_lengths() {
    let fine = row(&[0, 1, 0, 0]);
    assert_eq!(refused(&fine[..17]), Some((18, 0)));
    assert_eq!(refused(&[&fine[..], &[0]].concat()), Some((18, 0)));
    assert_eq!(refused(&fine.repeat(64)), None);
    assert_eq!(refused(&fine.repeat(65)), Some((18, 0)));
    // Before the rows, and between 4 and 5.
    assert_eq!(refused(&[&row(&[9])[..], &[0]].concat()), Some((18, 0)));
    let mut tables = with_names(&fine[..17]);
    let refusal = |tables: &Tables| judge(tables, &[], &[], 0).answer.unwrap_err();
    assert_eq!(refusal(&tables), Refusal::at(18, 0));
    tables.bytes = b"";
    assert_eq!(refusal(&tables), Refusal::at(4, 0));
}

/// n0 and so on are names, in place of the letters x, y, z.
fn condition(text: &str) -> Vec<u32> {
    let token = |word: &str| match word {
        "x" => 5 * 65_536,
        "y" => 5 * 65_536 + 1,
        "z" => 5 * 65_536 + 2,
        _ => token(word),
    };
    text.split(' ').map(token).collect()
}

fn judged_with(names: &[u32], text: &str, record: &[u8]) -> Judged {
    let tables = with_names(names);
    let condition = condition(text);
    let judged = judge(&tables, &condition, record, 0x80);
    let plan = planned(&tables, &condition).unwrap();
    assert_eq!(run(&tables, &plan, record, 0x80), judged);
    assert_eq!(
        expanded(&tables, &condition).map(|full| planned(&tables, &full)),
        Ok(Ok(plan))
    );
    judged
}

#[test]
fn values_and_ranges() {
    let holds =
        |name: &[u32], record: &[u8; 11]| judged_with(&row(name), "x", record).answer.unwrap();
    let record = b"07B  ab\x03\x0300";
    // 5 THRU 10, both ends included; 2.5 alone.
    for (digits, within) in [
        (b"04", false),
        (b"05", true),
        (b"07", true),
        (b"10", true),
        (b"11", false),
    ] {
        let mut record = *record;
        record[..2].copy_from_slice(digits);
        assert_eq!(holds(&[0, 1, 0, 1], &record), within);
        assert_eq!(holds(&[0, 2, 3, 3, 0, 1], &record), within);
        assert!(!holds(&[0, 1, 3, 3], &record));
    }
    // Characters, filled with spaces: "B" THRU "BA", and a number's digits.
    for (text, within) in [
        (b"B  ", true),
        (b"BA ", true),
        (b"B A", true),
        (b"BAA", false),
        (b"A  ", false),
    ] {
        let mut record = *record;
        record[2..5].copy_from_slice(text);
        assert_eq!(holds(&[1, 1, 5, 6], &record), within, "{text:?}");
    }
    let mut five = *record;
    five[2..5].copy_from_slice(b"5  ");
    assert!(holds(&[1, 1, 0, 0], &five) && holds(&[1, 1, 4, 4], &five));
    // 5 THRU 10 as characters lets nothing through on a text.
    assert!(!holds(&[1, 1, 0, 1], &five));
    // Packed 30.3 and -0.5 between -3 and 2.5.
    assert!(!holds(&[3, 1, 2, 3], b"00   ab\x30\x3300"));
    assert!(holds(&[3, 1, 2, 3], b"00   ab\x00\x5400"));
    // A group as it lies: "5" is filled up.
    assert!(holds(&[4, 1, 4, 4], b"5    ab\x00\x5400"));
    // 2.5 on PIC 9V9.
    assert!(holds(&[5, 1, 3, 3], b"00   ab\x00\x5425"));
}

/// "An invalid item gives 13 or 17"; "drops the carry"; counts as one.
#[test]
fn stops_counts_and_carry() {
    let names = [
        row(&[0, 1, 0, 1]),
        row(&[2, 2, 5, 5, 0, 0]),
        row(&[4, 1, 4, 4]),
    ]
    .concat();
    let record = b"0 B  a7\x03\x0300";
    let stops = |text: &str| {
        let judged = judged_with(&names, text, record);
        let refusal = judged.answer.unwrap_err();
        (refusal.number, refusal.place, refusal.byte, judged.count)
    };
    assert_eq!(stops("x"), (13, 0, 1, 1));
    assert_eq!(stops("y"), (17, 0, 6, 1));
    assert_eq!(stops("b NUMERIC OR NOT z AND y"), (17, 2, 6, 3));
    assert_eq!(
        judged_with(&names, "z OR NOT z OR x", record).answer,
        Ok(true)
    );
    assert_eq!(judged_with(&names, "z OR NOT z OR x", record).count, 2);
    let tables = with_names(&names);
    let refused = |text: &str| expanded(&tables, &condition(text)).unwrap_err();
    assert_eq!(refused("b = b AND x AND b"), Refusal::at(7, 7));
    assert_eq!(refused("x NUMERIC"), Refusal::at(7, 1));
    assert_eq!(refused("x = b"), Refusal::at(7, 1));
    assert_eq!(refused("NOT NOT x"), Refusal::at(7, 1));
    assert_eq!(expanded(&tables, &[5 * 65_536 + 3]), Err(Refusal::at(6, 0)));
}

#[test]
fn plan_rows() {
    let names = [row(&[0, 1, 0, 1]), row(&[2, 2, 5, 5, 0, 0])].concat();
    let tables = with_names(&names);
    let (x, y) = (5 * 65_536, 5 * 65_536 + 1);
    let plan = planned(&tables, &condition("NOT x AND y")).unwrap();
    assert_eq!(plan, [x, 0, 0, FALSE, 1, y, 0, 0, TRUE, FALSE]);
    for row in [
        [x, 1, 0],
        [x, 0, 1],
        [x, 32, 0],
        [x, 7, 0],
        [x + 2, 0, 0],
        [0, 7, x],
    ] {
        let plan = [&[x, 0, 0, 1, FALSE][..], &row, &[TRUE, FALSE]].concat();
        let answer = run(&tables, &plan, &[b'0'; 11], 0).answer;
        assert_eq!(answer, Err(Refusal::at(11, 1)), "{row:?}");
    }
}
