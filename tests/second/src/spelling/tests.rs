//! The reading of document 02, e), examples of documents 000 and 003, and what
//! random texts hold.

mod conditions;
mod random;

use super::*;

const RECORD: &str = "01 R. 05 A PIC 9. 05 B PIC S9V9. 05 C PIC X(3). 05 D PIC A. 05 FILLER PIC X. 05 E PIC X. 05 E PIC 9.";

const SWITCH: u32 = 2 * 65_536;
const WORD: u32 = 4 * 65_536;

/// Rows 0 to 4 of the record by letters, words as document 01 has them, L0 and so
/// on, U0 and so on.
fn tokens(text: &str) -> Vec<u32> {
    let token = |word: &str| {
        if let Some(v) = crate::show::WORDS.iter().position(|&known| known == word) {
            return WORD + v as u32;
        }
        match word.as_bytes() {
            [b'L', digit] => 65_536 + u32::from(digit - b'0'),
            [b'U', digit] => SWITCH + u32::from(digit - b'0'),
            [b'R'] => 0,
            [letter] => u32::from(letter - b'A') + 1,
            _ => panic!("{word}"),
        }
    };
    text.split(' ').map(token).collect()
}

fn check(text: &str, wanted: &str) -> Condition {
    let said = condition(RECORD.as_bytes(), text.as_bytes());
    let said = said.unwrap_or_else(|refusal| panic!("{text}: {refusal:?}"));
    assert_eq!(said.tokens, tokens(wanted), "{text}");
    said
}

fn check_refusal(text: &str, number: u32, place: u32) {
    let said = condition(RECORD.as_bytes(), text.as_bytes());
    assert_eq!(said, Err(Refusal::at(number, place)), "{text}");
}

fn check_literals(text: &str, rows: &[u32], bytes: &[u8]) {
    let said = condition(RECORD.as_bytes(), text.as_bytes()).unwrap();
    assert_eq!(
        (&said.literals[..], &said.bytes[..]),
        (rows, bytes),
        "{text}"
    );
}

/// The five abbreviations of document 000, as it prints them and with blanks.
#[test]
fn abbreviations_of_the_standard() {
    for (text, wanted) in [
        ("A>B AND NOT <C OR D", "A > B AND NOT < C OR D"),
        ("A NOT EQUAL B OR C", "A NOT = B OR C"),
        ("NOT A = B OR C", "NOT A = B OR C"),
        ("NOT (A GREATER B OR\n<C)", "NOT ( A > B OR < C )"),
        (
            "NOT (A NOT>B AND C\nAND NOT D)",
            "NOT ( A NOT > B AND C AND NOT D )",
        ),
    ] {
        check(text, wanted);
        check(wanted, wanted);
    }
}

/// The conditions of document 003: relations, classes; and signs of 000.
#[test]
fn formats_of_the_standard() {
    for (text, wanted) in [
        ("A IS NOT GREATER THAN B", "A NOT > B"),
        ("A IS GREATER THAN B", "A > B"),
        ("A IS NOT > B", "A NOT > B"),
        ("A IS LESS THAN B", "A < B"),
        ("A IS NOT LESS THAN B", "A NOT < B"),
        ("A IS NOT < B", "A NOT < B"),
        ("A IS EQUAL TO B", "A = B"),
        ("A IS NOT EQUAL TO B", "A NOT = B"),
        ("A IS NOT = B", "A NOT = B"),
        ("A IS GREATER THAN OR EQUAL TO B", "A >= B"),
        ("A IS >= B", "A >= B"),
        ("A IS > = B", "A > = B"),
        ("A IS LESS THAN OR EQUAL TO B", "A <= B"),
        ("A IS <= B", "A <= B"),
        ("A GREATER OR EQUAL B", "A >= B"),
        ("A LESS OR EQUAL TO B", "A <= B"),
        ("A LESS THAN OR EQUAL B", "A <= B"),
        ("A IS NUMERIC", "A NUMERIC"),
        ("C IS NOT ALPHABETIC", "C NOT ALPHABETIC"),
        (
            "C IS ALPHABETIC-LOWER OR C ALPHABETIC-UPPER",
            "C ALPHABETIC-LOWER OR C ALPHABETIC-UPPER",
        ),
        (
            "A IS POSITIVE AND B IS NOT NEGATIVE",
            "A POSITIVE AND B NOT NEGATIVE",
        ),
        ("B ZERO OR UPSI-0 AND NOT UPSI-7", "B ZERO OR U0 AND NOT U7"),
    ] {
        check(text, wanted);
    }
}

#[test]
fn words_that_join() {
    check("GREATER OR = A", "> OR = A");
    check("> OR EQUAL A", "> OR = A");
    check("GREATER THAN OR A", "> OR A");
    check("GREATER OR", "> OR");
    check("GREATER EQUAL", "> =");
    check("A=>B", "A = > B");
    check("A>==B", "A >= = B");
    check("A OR EQUAL B", "A OR = B");
    check("LESS GREATER OR EQUAL OR EQUAL", "< >= OR =");
    check("GREATER OR EQUAL LESS THAN OR EQUAL TO", ">= <=");
    check_refusal("A = TO B", 15, 4);
    check_refusal("A > THAN B", 15, 4);
    check_refusal("A GREATER TO B", 15, 10);
    check_refusal("A GREATER OR EQUAL THAN B", 15, 19);
    check_refusal("A EQUAL TO TO B", 15, 11);
    check_refusal("A GREATER THAN THAN B", 15, 15);
    check_refusal("A IS IS B", 15, 5);
    check_refusal("IS A", 15, 0);
    check_refusal("(A) IS", 15, 4);
    check_refusal("UPSI-1 IS", 15, 7);
    check_refusal("A > IS B", 15, 4);
    check_refusal("TO", 15, 0);
    check_refusal("THAN", 15, 0);
    check("5 IS \"A\" IS", "L0 L1");
}

#[test]
fn words_of_no_sort() {
    for word in [
        "a",
        "A-",
        "-A",
        "A.",
        "N234567890123456789012345678901",
        "FILLER",
        "PIC",
        "COMP-3",
        "VALUE",
        "THRU",
        "SEPARATE",
        "\"A",
        "\"",
        "A\"B\"",
        "OR\"C\"",
        "\"A\"B",
        "\"A\"\"",
        "5.",
        ".",
        "+",
        "-.",
        "1.2.3",
        "1-2",
        "5+",
        "+-5",
        "*",
        "\u{1}",
    ] {
        check_refusal(&format!("A = {word}"), 15, 4);
    }
    for name in [
        "UPSI-8",
        "Z",
        "N23456789012345678901234567890",
        "5A",
        "UPSI",
        "E",
    ] {
        check_refusal(&format!("A = {name}"), 16, 4);
        check_refusal(&format!("A = {name} OR *"), 16, 4);
        check_refusal(&format!("* = {name}"), 15, 0);
    }
    // What stands in quotes ends no word, and a quote that stays open runs on.
    check_refusal("A = \"B OR C = D", 15, 4);
    check("A = \"B OR C\" = D", "A = L0 = D");
}

#[test]
fn literal_rows() {
    check_literals("5", &[3, 0, 1, 0, 1], b"5");
    check_literals("+0.50", &[5, 0, 4, 2, 3], b"+050");
    check_literals("-.5 .25", &[5, 0, 2, 1, 1, 3, 2, 2, 2, 2], b"-525");
    check_literals(
        "\"A\"\"B\" \"\"\"\"",
        &[2, 0, 3, 0, 0, 2, 3, 1, 0, 0],
        b"A\"B\"",
    );
    check_literals("\"(<> \n\" A", &[2, 0, 5, 0, 0], b"(<> \n");
    check_literals("5 5", &[3, 0, 1, 0, 1, 3, 1, 1, 0, 1], b"55");
    check_refusal("\"\"", 15, 0);
    let long = |count: usize| format!("\"{}\"", "A".repeat(count));
    check_literals(&long(256), &[2, 0, 256, 0, 0], &[b'A'; 256]);
    check_refusal(&long(257), 15, 0);
    let quotes = |count: usize| "\"".repeat(2 * count + 2);
    check_literals(&quotes(256), &[2, 0, 256, 0, 0], &[b'"'; 256]);
    check_refusal(&quotes(257), 15, 0);
    let nines = |count: usize| "9".repeat(count);
    check_literals(&nines(18), &[3, 0, 18, 0, 18], &[b'9'; 18]);
    check_refusal(&nines(19), 15, 0);
    check_refusal(&format!("A = +.{}", nines(19)), 15, 4);
}

#[test]
fn limits() {
    let literals = |count: usize| format!("A ={}", " 1".repeat(count));
    check_literals(
        &literals(64)[4..],
        &[3, 0, 1, 0, 1]
            .repeat(64)
            .iter()
            .enumerate()
            .map(|(i, &n)| if i % 5 == 1 { i as u32 / 5 } else { n })
            .collect::<Vec<_>>(),
        &[b'1'; 64],
    );
    check_refusal(&literals(65), 15, 3 + 2 * 64 + 1);
    let words = |count: usize| "(".repeat(count);
    assert_eq!(
        condition(RECORD.as_bytes(), words(256).as_bytes())
            .unwrap()
            .tokens
            .len(),
        256
    );
    check_refusal(&words(257), 5, 0);
    check_refusal("", 5, 0);
    check_refusal(" \n ", 5, 0);
    // Byte 2,048, and what stands before it or begins there.
    let padded = |text: &str, length: usize| format!("{text}{}", " ".repeat(length - text.len()));
    check(&padded("A > B", 2_048), "A > B");
    check_refusal(&padded("A > B", 2_049), 15, 2_048);
    check_refusal(&padded("", 2_049), 15, 2_048);
    check_refusal(&(padded("A >", 2_048) + "Z"), 15, 2_048);
    check_refusal(&(padded("A >", 2_047) + "ZZZZ"), 16, 2_047);
    check_refusal(&(padded("A >", 2_047) + "*"), 15, 2_047);
    // A word is not cut: its quote closes behind byte 2,048, or does not.
    check_refusal(&(padded("A >", 2_040) + "\"AAAAAAAAAAAA\""), 15, 2_048);
    check_refusal(&(padded("A >", 2_040) + "\"AAAAAAAAAAAA"), 15, 2_040);
    check_refusal(&(words(300) + "*"), 15, 300);
}

#[test]
fn descriptions_first_and_rooms_last() {
    let mut room = ([7; 3], [7; 5], [7; 1]);
    let mut call = |description: &str, text: &str, rooms: [usize; 3]| {
        let (tokens, literals, bytes) = (&mut room.0, &mut room.1, &mut room.2);
        let said = read(
            description.as_bytes(),
            text.as_bytes(),
            &mut tokens[..rooms[0]],
            &mut literals[..rooms[1]],
            &mut bytes[..rooms[2]],
        );
        let untouched = *tokens == [7; 3] && *literals == [7; 5] && *bytes == [7];
        assert_eq!(untouched, said.is_err());
        said
    };
    let refused = |number, place| Err(Refusal::at(number, place));
    assert_eq!(call("77 A PIC .", "*", [3, 5, 1]), refused(14, 9));
    assert_eq!(call("77 A PIC 9.", "A = *", [0, 0, 0]), refused(15, 4));
    assert_eq!(call("77 A PIC 9.", "A = 5", [2, 0, 0]), refused(10, 3));
    assert_eq!(call("77 A PIC 9.", "A = 5", [3, 4, 0]), refused(10, 5));
    assert_eq!(call("77 A PIC 9.", "A = 5", [3, 5, 0]), refused(10, 1));
    assert_eq!(call("77 A PIC 9.", "A = 5", [3, 5, 1]), Ok([3, 5, 1]));
}

#[test]
fn printed_words() {
    let literals = [
        2, 0, 3, 0, 0, 3, 3, 2, 0, 2, 3, 3, 2, 2, 2, 5, 5, 4, 1, 3, 5, 5, 4, 3, 3,
    ];
    let bytes = b"A\"B12-345";
    let mut output = [0; 200];
    let mut printed = |tokens: &[u32]| {
        print(RECORD.as_bytes(), &literals, bytes, tokens, &mut output)
            .map(|[length]| String::from_utf8_lossy(&output[..length as usize]).to_string())
    };
    let whole =
        "( R > L0 OR NOT A >= L1 AND B <= L2 ) AND L3 = L4 OR U3 AND C NOT ALPHABETIC-UPPER";
    assert_eq!(
        printed(&tokens(whole)).unwrap(),
        "( R > \"A\"\"B\" OR NOT A >= 12 AND B <= .12 ) AND -34.5 = -.345 OR UPSI-3 AND C NOT ALPHABETIC-UPPER"
    );
    let refused = |number, place| Err(Refusal::at(number, place));
    // FILLER and the doubled name E are rows 5, 6 and 7; there is no row 8.
    assert_eq!(printed(&[1, 5]), refused(16, 1));
    assert_eq!(printed(&[6, 5]), refused(16, 0));
    assert_eq!(printed(&[7]), refused(16, 0));
    assert_eq!(printed(&[5, 8]), refused(6, 1));
    assert_eq!(printed(&[5, 3 * 65_536]), refused(6, 1));
    assert_eq!(printed(&[5, 3 * 65_536, 9]), refused(6, 1));
    assert_eq!(printed(&[5, 9, 3 * 65_536]), refused(6, 1));
    assert_eq!(printed(&[]), refused(5, 0));
    assert_eq!(printed(&[1; 257]), refused(5, 0));
    assert_eq!(
        printed(&tokens("NUMERIC NUMERIC NUMERIC")).unwrap(),
        "NUMERIC NUMERIC NUMERIC"
    );
}

#[test]
fn refusals_of_the_printer() {
    let other = |literals: &[u32], bytes: &[u8], description: &str, room: usize| {
        print(
            description.as_bytes(),
            literals,
            bytes,
            &[0],
            &mut [7; 9][..room],
        )
    };
    let refused = |number, place| Err(Refusal::at(number, place));
    assert_eq!(
        other(&[2, 0, 1, 0, 0, 1], b"A", "77 A PIC 9.", 9),
        refused(3, 0)
    );
    assert_eq!(
        other(&[2, 0, 2, 0, 0], b"A", "77 A PIC 9.", 9),
        refused(4, 0)
    );
    assert_eq!(other(&[], b"", "77 A PIC .", 9), refused(14, 9));
    assert_eq!(other(&[], b"", "77 AB PIC 9.", 1), refused(10, 2));
    assert_eq!(other(&[], b"", "77 AB PIC 9.", 2), Ok([2]));
}
