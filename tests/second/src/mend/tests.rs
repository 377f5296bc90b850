//! What document 02, m) says, and what random cases hold.

use super::*;
use crate::subject::{check_stored, Subject};
use std::collections::HashSet;

fn check(row: [u32; 5], record: &[u8], wanted: &[u8]) {
    let mut after = record.to_vec();
    mend(&row, &mut after, &mut [0; 60]).unwrap();
    assert_eq!(after, wanted, "{row:?} {}", record.escape_ascii());
}

#[test]
fn blanks_before_digits() {
    check([3, 0, 4, 0, 4], b"  12", b"0012");
    check([3, 0, 4, 0, 4], b"   1", b"0001");
    check([3, 1, 3, 0, 3], b"   1", b" 001");
    check([3, 0, 4, 0, 4], b"1 12", b"1 12");
    check([3, 0, 4, 0, 4], b"  1 ", b"  1 ");
    check([3, 0, 4, 0, 4], b"    ", b"    ");
    check([3, 0, 4, 0, 4], b"  *1", b"  *1");
    check([3, 0, 4, 0, 4], b"1234", b"1234");
    check([3, 0, 4, 0, 4], b"  1E", b"  1E");
    // Kind 4's last byte counts as a digit, whatever its sign.
    check([4, 0, 3, 0, 3], b"  E", b"00E");
    check([4, 0, 3, 0, 3], b"  5", b"005");
    check([4, 0, 3, 0, 3], b" 1 ", b" 1 ");
    check([4, 0, 3, 0, 3], b"  J", b"  J");
    check([4, 0, 1, 0, 1], b" ", b" ");
    check([4, 0, 3, 0, 3], b" E5", b" E5");
}

#[test]
fn blank_signs() {
    check([5, 0, 3, 0, 2], b" 12", b"+12");
    check([5, 0, 3, 0, 2], b"  2", b"+02");
    check([5, 0, 3, 0, 2], b"- 2", b"-02");
    check([5, 0, 3, 0, 2], b"   ", b"   ");
    check([5, 0, 3, 0, 2], b"-  ", b"-  ");
    check([5, 0, 3, 0, 2], b"*12", b"*12");
    check([6, 0, 3, 0, 2], b"12 ", b"12+");
    check([6, 0, 3, 0, 2], b" 2 ", b"02+");
    check([6, 0, 3, 0, 2], b" 2-", b"02-");
    check([6, 0, 3, 0, 2], b"  -", b"  -");
    check([6, 0, 3, 0, 2], b"1  ", b"1  ");
    check([6, 0, 3, 0, 2], b"+2 ", b"+2 ");
}

#[test]
fn other_kinds_stay() {
    for row in [
        [0, 0, 2, 0, 0],
        [7, 0, 2, 0, 0],
        [1, 0, 2, 0, 0],
        [2, 0, 2, 0, 0],
        [8, 0, 2, 0, 2],
        [9, 0, 2, 0, 3],
    ] {
        check(row, b" 1", b" 1");
    }
}

/// "In rising order", not by rows; a group over the items is no hindrance.
#[test]
fn changes_by_offset() {
    let items = [3, 4, 2, 0, 2, 7, 0, 6, 0, 0, 5, 0, 4, 0, 3];
    let mut record = *b"   7 9";
    let mut list = [9; 13];
    assert_eq!(mend(&items, &mut record, &mut list), Ok([12]));
    assert_eq!(list, [0, 32, 43, 1, 32, 48, 2, 32, 48, 4, 32, 48, 9]);
    assert_eq!(&record, b"+00709");
}

#[test]
fn refusals_in_their_order() {
    let refused = |items: &[u32], record: &[u8], room: usize| {
        let mut after = record.to_vec();
        let refusal = mend(items, &mut after, &mut vec![7; room]).unwrap_err();
        assert_eq!(after, record);
        (refusal.number, refusal.place)
    };
    let apart = [3, 0, 2, 0, 2, 0, 0, 9, 0, 0, 2, 2, 1, 0, 0];
    let overlapping = [&apart[..], &[1, 1, 1, 0, 0, 3, 0, 1, 0, 1]].concat();
    assert_eq!(refused(&apart[..14], b" 1", 0), (1, 0));
    assert_eq!(
        refused(&[&overlapping[..], &[3, 0, 0, 0, 0]].concat(), b"", 0),
        (2, 5)
    );
    assert_eq!(refused(&overlapping, b"", 0), (19, 3));
    assert_eq!(refused(&apart, b" 1345678", 0), (12, 1));
    assert_eq!(refused(&apart, b" 13456789", 2), (10, 3));
    assert_eq!(
        mend(&apart, &mut b" 13456789".to_vec(), &mut [7; 3]),
        Ok([3])
    );
}

/// "Putting the old bytes back restores the record, and a second call changes
/// nothing"; random cases hold every refusal and mended items of every kind.
#[test]
fn restored_and_mended_once() {
    check_stored::<case::Case>();
    let mut refusals = HashSet::new();
    let mut kinds = HashSet::new();
    for index in 0..20_000 {
        let case = case::Case::case(61, index);
        let answer = case.answer();
        refusals.insert(answer.result.map_or_else(|refusal| refusal.number, |_| 0));
        let mut record = answer.record.clone();
        let Ok([count]) = answer.result else {
            assert_eq!(record, case.record);
            continue;
        };
        assert_eq!(mend(&case.items, &mut record.clone(), &mut []), Ok([0]));
        let mut last = None;
        for change in answer.changes[..count as usize].chunks(3) {
            assert!(last < Some(change[0]));
            last = Some(change[0]);
            let byte = &mut record[change[0] as usize];
            assert_eq!(u32::from(*byte), change[2]);
            *byte = change[1] as u8;
            let owner = rows(&case.items)
                .find(|row| !row.is_group() && row.bytes().contains(&(change[0] as usize)));
            kinds.insert((owner.unwrap().kind, change[2]));
        }
        assert_eq!(record, case.record);
    }
    assert_eq!(refusals, HashSet::from([0, 1, 2, 10, 12, 19]));
    let wanted = [(3, 48), (4, 48), (5, 48), (6, 48), (5, 43), (6, 43)];
    assert_eq!(kinds, HashSet::from(wanted));
}
