//! The places of the reading of document 02, and rows, limits and rooms.

mod beginnings;
mod conditions;

use super::*;

/// Rows and places of a text, whose other outputs are not asked for.
fn read(text: &[u8]) -> Result<(Vec<u32>, Vec<u32>), Refusal> {
    super::read(text).map(|described| (described.rows, described.places))
}

fn check(text: &str, rows: &[u32], places: &[u32]) {
    let wanted = Ok((rows.to_vec(), places.to_vec()));
    assert_eq!(read(text.as_bytes()), wanted, "{text}");
}

fn check_fault(text: &str, place: u32) {
    assert_eq!(read(text.as_bytes()), Err(Refusal::at(14, place)), "{text}");
}

#[test]
fn places_of_the_reading() {
    check_fault("", 0);
    check_fault("02 A", 1);
    check_fault("01 A. 05 B PIC X. 03", 19);
    check_fault("01 A. 01 B", 7);
    check_fault("01 A PIC X .", 10);
    check_fault("01 PIC PIC X.", 6);
    check_fault("77 A.", 4);
    check_fault("01 A. 49 B.", 10);
    check_fault("01 12 PIC X.", 5);
    check_fault(&format!("01 {} PIC X.", "1".repeat(30)), 3 + 29);
    check_fault("01 A PIC X(0)", 12);
    check_fault("01 A PIC 9 SIGN", 11);
    check_fault("01 A PIC X.02", 11);
    check_fault("01 A PIC V.", 10);
}

#[test]
fn more_places() {
    // Texts that could go on, at their end.
    for text in [
        " ",
        "\n",
        "0",
        "7",
        "01",
        "01 ",
        "01 A",
        "01 A ",
        "01 A.",
        "01 A. ",
        "01 A PIC",
        "01 A PIC ",
        "01 A PIC X",
        "01 A PIC X(",
        "01 A PIC X(0",
        "01 A PIC X(1",
        "01 A PIC X(1)",
        "01 A PIC S",
        "01 A PIC S9 ",
        "01 A PIC S9 SIGN",
        "01 A PIC S9 SIGN LEADING ",
        "01 A PIC S9 SIGN TRAILING SEPARATE",
        "01 A-",
        "01 1",
        "01 A. 02",
        "01 FILLER",
        "01 PIC",
        "01 A. 02 B PIC X. 0",
        "01 A PIC X. 7",
    ] {
        check_fault(text, text.len() as u32);
    }
    check_fault("1", 0);
    check_fault("01  PIC X.", 7);
    check_fault("01\tA PIC X.", 2);
    check_fault("01 a PIC X.", 3);
    check_fault("01 -A PIC X.", 3);
    check_fault("01 A- PIC X.", 5);
    check_fault("01 A PIC X. 77 B. ", 16);
    check_fault("01 A. 77", 6);
    check_fault("01 A. 50", 6);
    check_fault("01 A. 02 B PIC X. 03 C PIC X.", 19);
    check_fault("01 A. 05 B. 07 C PIC X. 06", 25);
    check_fault("01 A. 05 B. 07 C PIC X. 05 D PIC X. 07", 37);
    check_fault("01 A. 48 B. 4", 13);
    check_fault("01 A. 48 B. 48", 13);
    check_fault("01 A PIC XA.", 10);
    check_fault("01 A PIC 9V9V.", 12);
    check_fault("01 A PIC S9 SIGN LEADING.", 24);
    check_fault("01 A PIC S9 SIGN SEPARATE.", 17);
    check_fault("01 A PIC S9 SIGN LEADING SEPARATE .", 33);
    check_fault("01 A PICTURE X.", 8);
    check_fault("01 A PIC.", 8);
    check_fault("01 UPSI-7 PIC X.", 9);
    check_fault("01 UPSI-8 PIC X(1)X(0).", 21);
    check_fault("01 A PIC X(00).", 13);
    check_fault("01 A PIC X()", 11);
    check_fault("01.", 2);
    check_fault("01 A PIC X..", 11);
    check_fault("01 A . ", 5);
}

#[test]
fn names_at_their_limits() {
    let name = |length: usize| format!("77 {} PIC X.", "N".repeat(length));
    check(&name(30), &[2, 0, 1, 0, 0], &[3]);
    check_fault(&name(31), 33);
    check_fault(&format!("77 {}- PIC X.", "N".repeat(29)), 32);
    check(
        &format!("77 {}A PIC X.", "1".repeat(29)),
        &[2, 0, 1, 0, 0],
        &[3],
    );
    check("01 A--B PIC X.", &[2, 0, 1, 0, 0], &[3]);
    check(
        "01 X PIC X. 01 S PIC A. 77 9V PIC V9.",
        &[2, 0, 1, 0, 0, 1, 1, 1, 0, 0, 3, 2, 1, 1, 1],
        &[3, 15, 27],
    );
    for keyword in [
        "ZERO",
        "ALPHABETIC-LOWER",
        "IS",
        "THAN",
        "TO",
        "SEPARATE",
        "OR",
        "UPSI-0",
    ] {
        check_fault(&format!("01 {keyword} PIC X."), 3 + keyword.len() as u32);
        check(&format!("01 {keyword}A PIC X."), &[2, 0, 1, 0, 0], &[3]);
    }
}

#[test]
fn rows_of_an_entry_tree() {
    let text = "\n01 LOG.\n  05 OWNER PIC A(20).\n  05 METER.\n    10 FILLER PIC 9(4)V99.\n    10 DRIFT PIC S9(3)\n      SIGN LEADING SEPARATE.\n  05 X PIC S9V9 SIGN TRAILING SEPARATE.\n77 T PIC S99. 01 END PIC X(3)X.\n\n";
    let place = |word: &str| text.find(word).unwrap() as u32;
    check(
        text,
        &[
            0, 0, 33, 0, 0, 1, 0, 20, 0, 0, 0, 20, 10, 0, 0, 3, 20, 6, 2, 6, 5, 26, 4, 0, 3, 6, 30,
            3, 1, 2, 4, 33, 2, 0, 2, 2, 35, 4, 0, 0,
        ],
        &[
            place("LOG"),
            place("OWNER"),
            place("METER"),
            place("FILLER"),
            place("DRIFT"),
            place("X PIC"),
            place("77 T") + 3,
            place("END"),
        ],
    );
}

#[test]
fn levels_of_members() {
    check(
        "01 A. 49 B PIC X. 49 C PIC X.",
        &[7, 0, 2, 0, 0, 2, 0, 1, 0, 0, 2, 1, 1, 0, 0],
        &[3, 9, 21],
    );
    // Other groups may have other member levels.
    check(
        "01 A. 05 B. 10 C PIC X. 05 D. 07 E PIC 9.",
        &[
            7, 0, 2, 0, 0, 7, 0, 1, 0, 0, 2, 0, 1, 0, 0, 7, 1, 1, 0, 0, 3, 1, 1, 0, 1,
        ],
        &[3, 9, 15, 27, 33],
    );
}

/// "Kind 7, a group with no signed item at any depth" (02, b).
#[test]
fn groups_without_signs() {
    let kinds = |text: &str| -> Vec<u32> {
        let (rows, _) = read(text.as_bytes()).unwrap();
        rows.chunks(5).map(|row| row[0]).collect()
    };
    assert_eq!(kinds("01 A. 02 B PIC 9. 02 C PIC X."), [7, 3, 2]);
    assert_eq!(kinds("01 A. 02 B PIC 9. 02 C PIC S9."), [0, 3, 4]);
    assert_eq!(
        kinds("01 A. 02 B. 03 C PIC 9. 02 D. 03 E PIC SV9."),
        [0, 7, 3, 0, 4]
    );
    assert_eq!(
        kinds("01 A. 02 B PIC A. 77 C PIC S9. 01 D. 02 E PIC 9."),
        [7, 1, 4, 7, 3]
    );
    let deep = "01 A. 02 B. 03 C. 04 D PIC S9 SIGN LEADING SEPARATE. 03 E PIC 9. 02 F. 05 G PIC X.";
    assert_eq!(kinds(deep), [0, 0, 0, 5, 3, 7, 2]);
    let trailing = "01 A. 02 B. 03 C PIC X. 02 D. 03 E PIC S9 SIGN TRAILING SEPARATE.";
    assert_eq!(kinds(trailing), [0, 7, 2, 0, 6]);
    let packed = "01 A. 02 B. 03 C PIC 9 COMP-3. 02 D. 03 E PIC S9 COMP-3.";
    assert_eq!(kinds(packed), [0, 7, 9, 0, 8]);
}

/// "The reader of a) takes COMP-3, a keyword now, in SIGN's place, with or
/// without S" (02, f).
#[test]
fn packed_items() {
    check("01 A PIC S9(5)V9(3) COMP-3.", &[8, 0, 5, 3, 8], &[3]);
    check("01 A PIC 9\nCOMP-3.", &[9, 0, 1, 0, 1], &[3]);
    for digits in 1..=18 {
        let size = (digits + 2) / 2;
        let text = format!("01 A. 02 B PIC SV9({digits}) COMP-3. 02 C PIC 9({digits}) COMP-3.");
        let rows = [
            [0, 0, 2 * size, 0, 0],
            [8, 0, size, digits, digits],
            [9, size, size, 0, digits],
        ];
        let (read, _) = read(text.as_bytes()).unwrap();
        assert_eq!(read, rows.concat());
    }
    check(
        "01 A. 02 B PIC 9 COMP-3. 77 C PIC X.",
        &[7, 0, 1, 0, 0, 9, 0, 1, 0, 1, 2, 1, 1, 0, 0],
        &[3, 9, 28],
    );
    // 18 and 19 digits lie in ten bytes; only the first is within the limits.
    check("77 A PIC 9(18) COMP-3.", &[9, 0, 10, 0, 18], &[3]);
    check_fault("77 A PIC 9(19) COMP-3.", 0);
    check_fault("77 B PIC 9 COMP-3. 77 A PIC S9(18)V9 COMP-3.", 19);
    let wraps = "18446744073709551618";
    check_fault(&format!("77 A PIC 9({wraps}) COMP-3."), 0);
    check_fault(&format!("01 A. 02 B PIC 9({wraps}) COMP-3."), 0);
    for (text, place) in [
        ("01 A PIC X COMP-3.", 10),
        ("01 A PIC A COMP-3.", 10),
        ("01 A PIC 9 COMP-3 .", 17),
        ("01 A PIC 9 COMP-3 SIGN", 17),
        ("01 A PIC 9 COMP.", 15),
        ("01 A PIC 9 COMP-", 16),
        ("01 A PIC 9 COMP-3", 17),
        ("01 A PIC 9 .", 11),
        ("01 A PIC S9 SIGN LEADING COMP-3.", 25),
        ("01 COMP-3 PIC X.", 9),
    ] {
        check_fault(text, place);
    }
    check("01 COMP-3A PIC X.", &[2, 0, 1, 0, 0], &[3]);
}

#[test]
fn sizes_at_their_limits() {
    check("01 A PIC X(256).", &[2, 0, 256, 0, 0], &[3]);
    check_fault("01 A PIC X(257).", 0);
    check("01 A PIC A(255)A.", &[1, 0, 256, 0, 0], &[3]);
    check_fault("77 B PIC X. 01 A PIC A(255)AA.", 12);
    check("01 A PIC 9(9)V9(9).", &[3, 0, 18, 9, 18], &[3]);
    check("01 A PIC SV9(18).", &[4, 0, 18, 18, 18], &[3]);
    check_fault("01 A PIC 9(18)V9.", 0);
    check(
        "01 A PIC S9(18) SIGN LEADING SEPARATE.",
        &[5, 0, 19, 0, 18],
        &[3],
    );
    check_fault("01 A PIC S9(19) SIGN TRAILING SEPARATE.", 0);
    // A faulty byte before a limit is known: the entry is not complete.
    check_fault("01 A PIC X(257)Y", 15);
    check_fault("01 A PIC X(257).Y", 0);
    check_fault("01 A PIC X(257)", 15);
}

#[test]
fn groups_beyond_their_limit() {
    check_fault("01 A. 02 B PIC X(65535).", 6);
    check_fault("01 A. 02 B PIC X(65536).", 0);
    check_fault("01 A. 02 B. 03 C PIC X(60000). 02 D PIC X(5535).", 12);
    check_fault("01 A. 02 B. 03 C PIC X(60000). 02 D PIC X(5536).", 0);
    // Only complete members count.
    check_fault("01 A. 02 B. 03 C PIC X(60000). 02 D PIC X(5536)", 12);
    check_fault("01 A. 02 B. 03 C PIC X(60000). 77 D PIC X(5536).", 12);
    // Offsets pass their limit only behind a size that does.
    check_fault("01 A PIC X(65536). 01 B PIC X.", 0);
}

#[test]
fn counts_of_any_length() {
    let zeros = "0".repeat(3_000);
    check(&format!("01 A PIC X({zeros}7)."), &[2, 0, 7, 0, 0], &[3]);
    check_fault(&format!("01 A PIC X({zeros})."), 3_011);
    check_fault(&format!("01 A. 02 B PIC X(1{zeros})."), 0);
    for wraps in [
        "18446744073709551617",
        "4294967297",
        "340282366920938463463374607431768211457",
    ] {
        check_fault(&format!("01 A. 02 B PIC X({wraps})."), 0);
        check_fault(&format!("77 C PIC 9. 77 B PIC 9({wraps})V9."), 12);
    }
}

/// "Or is its table's 65th".
#[test]
fn rows_64_and_65() {
    let texts = |count: usize| "77 A PIC X. ".repeat(count);
    let (rows, places) = read(texts(64).as_bytes()).unwrap();
    assert_eq!((rows.len(), places.len()), (320, 64));
    assert_eq!(&rows[315..], &[2, 63, 1, 0, 0]);
    check_fault(&texts(65), 64 * 12);
    check_fault(&texts(66), 64 * 12);
    // Not complete, so not yet the 65th; or behind the faulty byte.
    check_fault(&format!("{}77 B PIC X", texts(64)), 64 * 12 + 10);
    check_fault(&format!("{}* {}", texts(64), texts(1)), 64 * 12);
    check_fault(&format!("{}77 A PIC X(300). {}", texts(3), texts(64)), 36);
}

/// "Byte 4,096 is faulty."
#[test]
fn bytes_4095_and_4096() {
    let blanks = |count: usize| " ".repeat(count);
    let entry = "77 A PIC X.";
    check(
        &format!("{}{entry}", blanks(4_085)),
        &[2, 0, 1, 0, 0],
        &[4_088],
    );
    check_fault(&format!("{}{entry} ", blanks(4_085)), 4_096);
    check_fault(&format!("{}{entry}77", blanks(4_085)), 4_096);
    check_fault(&format!("{}{entry}", blanks(4_086)), 4_096);
    check_fault(&blanks(5_000), 4_096);
    check_fault(&blanks(4_096), 4_096);
    check_fault(&format!("{}*", blanks(4_095)), 4_095);
    // A complete entry before it that passes a limit.
    check_fault(&format!("{}77 A PIC X(300). ", blanks(4_080)), 4_080);
    check_fault(&format!("77 A PIC X(300).{}", blanks(4_081)), 0);
    check_fault(&format!("77 A PIC X(300){}.", blanks(4_081)), 15);
}

#[test]
fn rooms() {
    const NEEDED: [usize; 6] = [10, 2, 18, 1, 10, 3];
    let text = b"01 A. 02 B PIC X. 88 C VALUE \"D\" THRU \"FF\".";
    let call = |text: &[u8], rooms: [usize; 6]| {
        let mut numbers = [rooms[0], rooms[1], rooms[2], rooms[3], rooms[4]].map(|n| vec![7; n]);
        let mut bytes = vec![7; rooms[5]];
        let outputs = Outputs {
            numbers: numbers.each_mut().map(Vec::as_mut_slice),
            bytes: &mut bytes,
        };
        let result = describe(text, outputs);
        (result, numbers.concat(), bytes)
    };
    for output in 0..6 {
        // This one and all behind it too short: the first such is named.
        let mut rooms = NEEDED.map(|needed| needed + 1);
        for short in output..6 {
            rooms[short] = if short == output {
                NEEDED[short] - 1
            } else {
                0
            };
        }
        let (result, numbers, bytes) = call(text, rooms);
        assert_eq!(result, Err(Refusal::at(10, NEEDED[output] as u32)));
        assert!(numbers.iter().all(|&n| n == 7) && bytes.iter().all(|&n| n == 7));
    }
    let last = text.len() - 1;
    let (result, ..) = call(&text[..last], [0; 6]);
    assert_eq!(result, Err(Refusal::at(14, last as u32)));
    let (result, numbers, bytes) = call(text, NEEDED.map(|needed| needed + 1));
    assert_eq!(result, Ok([10, 2, 18, 1, 10, 3]));
    let written = [
        &[7, 0, 1, 0, 0, 2, 0, 1, 0, 0, 7, 3, 9, 7, 1, 1, 0, 1][..],
        &[0; 14],
        &[7, 21, 7, 2, 0, 1, 0, 0, 2, 1, 2, 0, 0, 7],
    ];
    assert_eq!(numbers, written.concat());
    assert_eq!(bytes, b"DFF\x07");
}
