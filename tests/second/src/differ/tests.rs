//! What document 02, j) says, and what random cases hold.

use super::*;
use crate::subject::{check_stored, Subject};
use std::collections::HashSet;

/// "Rows 0 in value and 2 in sign of zero print exactly \"0 V\", \"2 B\"."
#[test]
fn printed_to_the_letter() {
    let description = b"77 A PIC 9(2). 77 B PIC X. 77 C PIC S9(2) SIGN LEADING SEPARATE.";
    assert_eq!(text(description, b"12X+00", b"13X-00"), "0 V\n2 B\n");
    assert_eq!(text(description, b"12X+00", b"12X+00"), "");
    assert_eq!(text(description, b"12X+00", b" 2Y*00"), "0 I\n1 V\n2 I\n");
    assert_eq!(text(description, b"12X+00", b"12X+0"), "R 12\n");
    assert_eq!(text(description, b"", b"12X+00"), "R 12\n");
    assert_eq!(text(description, b"12X+00*", b"12X+00"), "");
    assert_eq!(text(b"", b"", b""), "R 14\n");
    assert_eq!(text(b"77 A PIC 9(2)", b"1", b"2"), "R 14\n");
    let many = "77 A PIC X. ".repeat(12);
    assert_eq!(
        text(many.as_bytes(), b"BAAAAAAAAAAA", b"AAAAAAAAAAAB"),
        "0 V\n11 V\n"
    );
}

#[test]
fn marks_by_kind() {
    // A group over all; each elementary kind of two bytes, scale 1 where it has one.
    let items = [
        0, 0, 16, 0, 0, 1, 0, 2, 0, 0, 2, 2, 2, 0, 0, 3, 4, 2, 1, 2, 4, 6, 2, 1, 2, 5, 8, 2, 1, 1,
        6, 10, 2, 1, 1, 7, 0, 4, 0, 0, 8, 12, 2, 1, 3, 9, 14, 2, 1, 2,
    ];
    let first = b"A1  0000+00+\x00\x03\x01\x23";
    let check = |second: &[u8; 16], wanted: &[(u32, u8)]| {
        let pairs = wanted
            .iter()
            .flat_map(|&(row, mark)| [row, u32::from(mark)]);
        let wanted: Vec<u32> = pairs.collect();
        assert_eq!(marks(&items, first, second), Ok(wanted.clone()));
        assert_eq!(marks(&items, second, first), Ok(wanted));
    };
    check(first, &[]);
    check(
        b"A2 1010@-00-\x00\x04\x01\x33",
        &[
            (1, b'V'),
            (2, b'V'),
            (3, b'V'),
            (4, b'B'),
            (5, b'B'),
            (6, b'B'),
            (8, b'B'),
            (9, b'V'),
        ],
    );
    check(
        b"A1  0 0P 00 \x00\x05\x11\x23",
        &[
            (3, b'I'),
            (4, b'I'),
            (5, b'I'),
            (6, b'I'),
            (8, b'I'),
            (9, b'I'),
        ],
    );
}

#[test]
fn refusals_in_their_order() {
    let refused = |items: &[u32], first: &[u8], second: &[u8], room: usize| {
        let refusal = differ(items, first, second, &mut vec![7; room]).unwrap_err();
        (refusal.number, refusal.place)
    };
    let items = [2, 0, 1, 0, 0, 0, 1, 3, 0, 0, 2, 2, 1, 0, 0];
    assert_eq!(refused(&items[..14], b"", b"", 0), (1, 0));
    assert_eq!(
        refused(&[2, 0, 1, 0, 0, 2, 0, 0, 0, 0], b"", b"", 0),
        (2, 1)
    );
    assert_eq!(refused(&items, b"", b"ABCD", 0), (12, 0));
    assert_eq!(refused(&items, b"ABCD", b"ABC", 0), (12, 1));
    assert_eq!(refused(&items, b"AB", b"ABC", 0), (12, 1));
    assert_eq!(refused(&items, b"ABCD", b"BBDD", 3), (10, 4));
    assert_eq!(differ(&items, b"ABCD", b"BBDD", &mut [7; 4]), Ok([4]));
    assert_eq!(differ(&[], b"A", b"", &mut []), Ok([0]));
}

#[test]
fn random_cases_hold_every_mark() {
    check_stored::<case::Case>();
    let mut seen = HashSet::new();
    let mut refusals = HashSet::new();
    for index in 0..20_000 {
        let case = case::Case::case(59, index);
        refusals.insert(
            case.answer()
                .result
                .map_or_else(|refusal| refusal.number, |_| 0),
        );
        let marks = marks(&case.items, &case.first, &case.second).unwrap_or_default();
        for pair in marks.chunks(2) {
            seen.insert((case.items[5 * pair[0] as usize], pair[1] as u8));
        }
    }
    for kind in [3, 4, 5, 6, 8, 9] {
        assert!(seen.contains(&(kind, b'V')) && seen.contains(&(kind, b'I')));
    }
    for kind in [4, 5, 6, 8] {
        assert!(seen.contains(&(kind, b'B')));
    }
    assert!(seen.contains(&(1, b'V')) && seen.contains(&(2, b'V')));
    assert_eq!(seen.len(), 18);
    assert_eq!(refusals, HashSet::from([0, 1, 2, 10, 12]));
}
