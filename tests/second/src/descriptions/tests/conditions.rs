//! Level 88 entries (02, h): what they give, where they are faulty, what bars them.

use super::super::read;
use super::check_fault;
use crate::descriptions::Described;

fn described(text: &str) -> Described {
    read(text.as_bytes()).unwrap_or_else(|refusal| panic!("{text}: {refusal:?}"))
}

fn name_row(begins: &[u32]) -> Vec<u32> {
    let mut row = begins.to_vec();
    row.resize(18, 0);
    row
}

/// An entry behind an item, whose own entry is 10 bytes longer than its picture.
fn behind(picture: &str, values: &str) -> String {
    format!("77 A PIC {picture}. 88 B VALUE {values}.")
}

#[test]
fn places_of_the_reading() {
    check_fault("77 A PIC 9. 88 B VALUE 5 .", 26);
    check_fault("77 A PIC X. 88 FILLER VALUE 5.", 21);
    check_fault("77 A PIC 9. 88 B VALUE 9 THRU 1.X", 12);
    check_fault("77 A PIC 9. 88 B VALUE 1 THRU 9.X", 32);
}

#[test]
fn rows_places_and_literals() {
    let text =
        "01 A. 88 ALL-BLANK VALUE \" \". 05 B PIC S9(3)V9. 88 LOW VALUE -1.5 THRU +.5 7\n12.25.\n\
                88 C\nVALUE 5.5. 05 FILLER PIC X(2). 88 D VALUE \"A\"\"B\" 5 THRU 6.";
    let place = |word: &str| text.find(word).unwrap() as u32;
    let described = described(text);
    let rows = [
        name_row(&[0, 1, 0, 0]),
        name_row(&[1, 3, 1, 2, 3, 3, 4, 4]),
        name_row(&[1, 1, 5, 5]),
        name_row(&[2, 2, 6, 6, 7, 8]),
    ];
    assert_eq!(described.names, rows.concat());
    assert_eq!(
        described.name_places,
        [
            place("ALL-BLANK"),
            place("LOW"),
            place("C\nVALUE"),
            place("D VALUE")
        ]
    );
    assert_eq!(described.literals.bytes, b" -15+57122555A\"B56");
    let literals = [
        [2, 0, 1, 0, 0],
        [5, 1, 3, 1, 2],
        [5, 4, 2, 1, 1],
        [3, 6, 1, 0, 1],
        [3, 7, 4, 2, 4],
        [3, 11, 2, 1, 2],
        [2, 13, 3, 0, 0],
        [3, 16, 1, 0, 1],
        [3, 17, 1, 0, 1],
    ];
    assert_eq!(described.literals.rows, literals.concat());
    assert_eq!(described.places.len(), 3);
    let kinds: Vec<u32> = described.rows.chunks(5).map(|row| row[0]).collect();
    assert_eq!(kinds, [0, 4, 2]);
}

/// "VALUE 5. ends, VALUE 5.5. is one literal: the byte after the point tells."
#[test]
fn points_and_periods() {
    let row = |values: &str| described(&behind("9V9(4)", values)).literals.rows;
    assert_eq!(row("5"), [3, 0, 1, 0, 1]);
    assert_eq!(row("5.5"), [3, 0, 2, 1, 2]);
    assert_eq!(row(".5"), [3, 0, 1, 1, 1]);
    assert_eq!(row("-.5"), [5, 0, 2, 1, 1]);
    check_fault("77 A PIC 9. 88 B VALUE 5.5.5.", 27);
    check_fault("77 A PIC 9. 88 B VALUE 5..", 25);
    check_fault("77 A PIC 9. 88 B VALUE .", 24);
    check_fault("77 A PIC 9. 88 B VALUE . ", 24);
    check_fault("77 A PIC 9. 88 B VALUE +.", 25);
    check_fault("77 A PIC 9. 88 B VALUE +-", 24);
    check_fault("77 A PIC 9. 88 B VALUE 5-", 24);
    check_fault("77 A PIC 9. 88 B VALUE 5.X", 25);
    check_fault("77 A PIC 9. 88 B VALUE 5.5", 26);
    check_fault("77 A PIC 9. 88 B VALUE 5", 24);
    check_fault("77 A PIC 9. 88 B VALUE 5. 5", 26);
}

/// "An unclosed quote puts the fault at the end of the text; after a closing quote
/// only a quote, a period or a blank may stand."
#[test]
fn quotes() {
    let bytes = |values: &str| described(&behind("X(9)", values)).literals.bytes;
    assert_eq!(bytes("\"A\"\"\""), b"A\"");
    assert_eq!(bytes("\"\"\"\""), b"\"");
    assert_eq!(bytes("\". 77 B PIC X.\""), b". 77 B PIC X.");
    assert_eq!(bytes("\"A\"\n\"B\" THRU \"C\""), b"ABC");
    for open in [
        "\"",
        "\"A",
        "\"A\"\"",
        "\"A. 77 C PIC X.",
        "\"A\" \"B",
        "\"A\" THRU \"\"\"",
    ] {
        let text = format!("77 A PIC X. 88 B VALUE {open}");
        check_fault(&text, text.len() as u32);
    }
    check_fault("77 A PIC X. 88 B VALUE \"A\"B", 26);
    check_fault("77 A PIC X. 88 B VALUE \"A\"5", 26);
    check_fault("77 A PIC X. 88 B VALUE \"A\".\"", 27);
    check_fault("77 A PIC X. 88 B VALUE 5\"A\"", 24);
    check_fault("77 A PIC X. 88 B VALUE 'A'", 23);
}

#[test]
fn words_of_an_entry() {
    for (text, place) in [
        ("88 B VALUE 5.", 0),
        (" 88", 1),
        ("77 A PIC 9. 87", 13),
        ("77 A PIC 9. 89", 13),
        ("77 A PIC 9. 8", 13),
        ("77 A PIC 9. 88.", 14),
        ("77 A PIC 9. 88 B.", 16),
        ("77 A PIC 9. 88 B PIC 9.", 17),
        ("77 A PIC 9. 88 B VALUES 5.", 22),
        ("77 A PIC 9. 88 B VALUE.", 22),
        ("77 A PIC 9. 88 VALUE VALUE 5.", 20),
        ("77 A PIC 9. 88 THRU VALUE 5.", 19),
        ("77 VALUE PIC 9.", 8),
        ("77 A PIC 9. 88 12 VALUE 5.", 17),
        ("77 A PIC 9. 88 B VALUE THRU", 23),
        ("77 A PIC 9. 88 B VALUE 5 THRU.", 29),
        ("77 A PIC 9. 88 B VALUE 5 THRU 6 THRU 7.", 32),
        ("77 A PIC 9. 88 B VALUE 5 THROUGH", 28),
        ("77 A PIC 9. 88 B VALUE ZERO.", 23),
        ("77 A PIC 9. 88 B VALUE 5, 6.", 24),
        ("77 A PIC 9. 88 B VALUE 5.88", 27),
        ("01 A. 88 B VALUE 5.", 19),
        ("01 A. 88 B VALUE 5. 01", 21),
        ("01 A. 88 B VALUE 5. 77", 20),
        ("01 A. 02 B PIC 9. 88 C VALUE 5. 03", 33),
    ] {
        check_fault(text, place);
    }
    assert_eq!(
        described("77 THRUX PIC 9. 88 VALUE1 VALUE 5.").name_places,
        [19]
    );
    // Names behind a group's last member are that member's.
    let text = "01 A. 02 B PIC 9. 88 C VALUE 5. 02 D PIC 9. 88 C VALUE 6. 77 E PIC 9.";
    let items: Vec<u32> = described(text).names.chunks(18).map(|row| row[0]).collect();
    assert_eq!(items, [1, 2]);
}

/// "What 18 or 01's limits bar is a row limit passed: 14 at the entry."
#[test]
fn barred_values() {
    for (picture, values) in [
        ("9", "9 THRU 1"),
        ("9", "1.5 THRU 1.49"),
        ("9", "0 THRU -1"),
        ("X", "\"9\" THRU \"10\""),
        ("X", "10 THRU 5"),
        ("X", "5 THRU \"7\""),
        ("9", "\"5\" THRU 7"),
        ("9", "1 2 3 4 5 6 7 8 9"),
        ("9", "1234567890123456789"),
        ("9", "-.1234567890123456789"),
        ("X", "\"\""),
        ("X", "\"A\" \"\""),
        ("X", "1.5"),
        ("A", "1.0"),
        ("V9", "\"5\""),
        ("9 COMP-3", "\"5\""),
        ("9 COMP-3", "5 \"5\""),
    ] {
        check_fault(&behind(picture, values), 11 + picture.len() as u32);
    }
    let long = |count: usize| format!("\"{}\"", "A".repeat(count));
    check_fault(&behind("X", &long(257)), 12);
    for (picture, values) in [
        ("X", long(256).as_str()),
        ("X", "5 THRU 10"),
        ("X(2)", "\"A\" THRU \"A \""),
        ("9", "\"5\" THRU \"7\" 5 THRU 7"),
        ("9", "5.50 THRU 5.5"),
        ("9", "-0 THRU +0"),
        ("9", "1 2 3 4 5 6 7 8"),
        ("9", "123456789012345678"),
        ("9 COMP-3", "-1.5 THRU .5"),
        ("A", "5 \"A\""),
    ] {
        described(&behind(picture, values));
    }
    // A group's values by its kind.
    described("01 A. 88 B VALUE 5 \"X\". 02 C PIC 9 COMP-3.");
    check_fault("01 A. 88 B VALUE 5.5. 02 C PIC 9.", 6);
    // The first entry that passes a limit, before the faulty byte.
    check_fault("77 A PIC 9. 88 B VALUE 9 THRU 1. 77 C PIC X(300).", 12);
    check_fault("77 A PIC X(300). 88 B VALUE 9 THRU 1.", 0);
    check_fault("77 A PIC 9. 88 B VALUE 9 THRU 1", 31);
    check_fault("77 A PIC 9. 88 B VALUE 9 THRU 1.5X", 33);
    check_fault("01 A. 88 B VALUE 9 THRU 1.", 6);
}

#[test]
fn sixty_five_names_and_literals() {
    let names = |count: usize| format!("77 A PIC 9. {}", "88 B VALUE 5. ".repeat(count));
    assert_eq!(described(&names(64)).names.len(), 64 * 18);
    check_fault(&names(65), 12 + 64 * 14);
    let eight = "88 B VALUE 1 THRU 2 3 THRU 4 5 THRU 6 7 THRU 8. ";
    let literals = |behind: &str| format!("77 A PIC 9. {}{behind}", eight.repeat(8));
    assert_eq!(described(&literals("")).literals.rows.len(), 320);
    let place = literals("").len() as u32;
    check_fault(&literals("88 B VALUE 1."), place);
    check_fault(&literals("77 A PIC 9. 88 B VALUE 1."), place + 12);
    let seven = format!("77 A PIC 9. {}", eight.repeat(7));
    check_fault(
        &format!("{seven}88 C VALUE 1 2 3 4 5 6 7 8 THRU 9."),
        seven.len() as u32,
    );
}

/// Byte 4,096, also inside quotes, and a period at byte 4,095.
#[test]
fn byte_4096() {
    let text = |values: &str, length: usize| {
        let start = "77 A PIC 9. ";
        let blanks = length - start.len() - values.len();
        format!("{start}{}{values}", " ".repeat(blanks))
    };
    described(&text("88 B VALUE 5.", 4_096));
    check_fault(&text("88 B VALUE 5.", 4_097), 4_096);
    check_fault(&text("88 B VALUE \"AAAAAAAA\".", 4_100), 4_096);
    let barred = text("88 B VALUE 9 THRU 5.", 4_096);
    check_fault(&barred, 4_076);
    check_fault(&format!("{barred}5. "), 4_076);
    check_fault(&format!("{barred} "), 4_076);
}
