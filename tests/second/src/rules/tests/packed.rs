//! Packed amounts (02, f).

use super::*;

/// "In source document 001, PIC S9(5)V9(3) holding −23 is hex 0000230004."
#[test]
fn twenty_three_of_the_maker() {
    // a packed, b trailing separate of scale 0, c the same digits at scale 2.
    let items = [8, 0, 5, 3, 8, 6, 5, 3, 0, 2, 6, 8, 5, 2, 4];
    let record = b"\x00\x00\x23\x00\x0423-2300-";
    for text in [
        "a = b",
        "b = a",
        "a = c",
        "a NEGATIVE",
        "a NUMERIC",
        "a NOT ZERO",
    ] {
        check_judged(&items, record, text, true);
    }
    check_judged(&items, record, "a > b OR a < c OR a POSITIVE", false);
}

/// Values of every numeric kind beside each other, by their scaled values.
#[test]
fn all_numeric_kinds_compare_as_values() {
    // Seven forms of -1.5 or 1.5, then of 0.
    let forms: [(&[u32], &[u8], i32); 10] = [
        (&[3, 0, 3, 1, 3], b"015", 15),
        (&[4, 0, 2, 1, 2], b"1E", -15),
        (&[5, 0, 4, 2, 3], b"-150", -15),
        (&[6, 0, 3, 1, 2], b"15+", 15),
        (&[8, 0, 2, 1, 2], b"\x01\x54", -15),
        (&[8, 0, 2, 2, 3], b"\x15\x03", 15),
        (&[9, 0, 3, 3, 4], b"\x01\x50\x03", 15),
        (&[8, 0, 1, 1, 1], b"\x04", 0),
        (&[9, 0, 2, 0, 2], b"\x00\x03", 0),
        (&[4, 0, 1, 0, 1], b"\x40", 0),
    ];
    for (row, bytes, value) in forms {
        for (other_row, other_bytes, other_value) in forms {
            let mut second = other_row.to_vec();
            second[1] = bytes.len() as u32;
            let items = [row, &second].concat();
            let record = [bytes, other_bytes].concat();
            check_judged(&items, &record, "a > b", value > other_value);
            check_judged(&items, &record, "a = b", value == other_value);
            check_judged(&items, &record, "a <= b", value <= other_value);
        }
    }
}

#[test]
fn eighteen_packed_digits_against_one() {
    // a is -0.999.., b a single 1, c eighteen 9s.
    let items = [8, 0, 10, 18, 18, 9, 10, 1, 0, 1, 9, 11, 10, 0, 18];
    let mut record = [0x99; 21];
    (record[0], record[9], record[10]) = (0x09, 0x94, 0x13);
    (record[11], record[20]) = (0x09, 0x93);
    check_judged(&items, &record, "a < b AND c > b AND a NEGATIVE", true);
    record[9] = 0x93;
    check_judged(&items, &record, "a < b AND a < c AND a POSITIVE", true);
    record[10] = 0x03;
    check_judged(&items, &record, "a > b AND b ZERO", true);
}

/// "Beside any nonnumeric operand they are refused with 9"; no letters on them.
#[test]
fn packed_beside_text() {
    // a signed packed, b unsigned packed, c group, d letters, e text, f kind 7,
    // g a number; L0 text, L1 and L2 numbers.
    let items = [
        8, 0, 2, 0, 3, 9, 2, 2, 1, 3, 0, 0, 4, 0, 0, 1, 4, 2, 0, 0, 2, 6, 2, 0, 0, 7, 0, 4, 0, 0,
        3, 8, 2, 0, 2,
    ];
    let literals = [2, 0, 3, 0, 0, 3, 0, 3, 0, 3, 5, 3, 3, 1, 2];
    let tables = Tables {
        literals: &literals,
        bytes: b"123-99",
        ..items_only(&items)
    };
    let record = b"\x12\x34\x01\x23AB1212";
    for (text, place) in [
        ("a = c", 0),
        ("c = a", 0),
        ("a = d", 0),
        ("a < e", 0),
        ("f > a", 0),
        ("a = b AND a = L0", 1),
        ("L0 = a", 0),
        ("a = b AND L1 AND L2 AND c", 3),
        ("a ALPHABETIC", 0),
        ("a NUMERIC AND b ALPHABETIC-UPPER", 1),
    ] {
        let refusal = Refusal::at(9, place);
        assert_eq!(judged(&tables, text, record, 0), Err(refusal), "{text}");
    }
    for (text, answer) in [
        ("a = b", false),
        ("a < L2 AND L2 > a", true),
        ("a NOT = L1 AND a < L1 AND b < g", true),
        (
            "a NUMERIC AND b NUMERIC AND a NEGATIVE AND b POSITIVE",
            true,
        ),
        ("b > L2 AND b < L1", true),
    ] {
        assert_eq!(judged(&tables, text, record, 0), Ok(answer), "{text}");
    }
}

/// 13 gives the first byte with a wrong half, subject before object.
#[test]
fn which_packed_byte() {
    let items = [8, 1, 3, 0, 4, 9, 4, 2, 0, 3];
    let tables = items_only(&items);
    for (record, text, byte) in [
        (b"*\x12\x34\x53\x12\x33", "a = b", 1),
        (b"*\x02\x3A\x55\x12\x33", "a = b", 2),
        (b"*\x02\x34\x55\x12\x34", "a = b", 3),
        (b"*\x02\x34\x55\x12\x34", "b = a", 5),
        (b"*\x02\x34\x54\xF2\x34", "a = b", 4),
        (b"*\x02\x34\xB4\xF2\x34", "a ZERO", 3),
    ] {
        let stop = stopped(13, 0, byte);
        assert_eq!(judged(&tables, text, record, 0), Err(stop), "{text}");
        assert_eq!(
            judged(&tables, "a NUMERIC AND b NUMERIC", record, 0),
            Ok(false)
        );
    }
}
