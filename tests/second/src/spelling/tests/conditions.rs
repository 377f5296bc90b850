//! Names of conditions in condition texts (02, h).

use super::super::{condition, print, Condition};
use crate::rules::Refusal;

const DESCRIPTION: &str = "01 R. 88 BLANK VALUE \" \". 05 A PIC 9. 88 LOW VALUE 1 THRU 3 7. \
                           05 B PIC X. 88 A VALUE \"B\". 05 C PIC 9. 88 E VALUE 1. 88 E VALUE 2.";

const NAME: u32 = 5 * 65_536;
const WORD: u32 = 4 * 65_536;

fn read(text: &str) -> Result<Condition, Refusal> {
    condition(DESCRIPTION.as_bytes(), text.as_bytes())
}

fn check(text: &str, tokens: &[u32]) {
    let said = read(text).unwrap_or_else(|refusal| panic!("{text}: {refusal:?}"));
    assert_eq!(said.tokens, tokens, "{text}");
}

fn check_refusal(text: &str, number: u32, place: u32) {
    assert_eq!(read(text), Err(Refusal::at(number, place)), "{text}");
}

#[test]
fn tokens_of_names() {
    check("LOW", &[NAME + 1]);
    check("NOT(BLANK)", &[WORD + 2, WORD, NAME, WORD + 1]);
    check("B > C OR LOW", &[2, WORD + 5, 3, WORD + 4, NAME + 1]);
}

/// "Names of conditions and items are one set when it comes to 16."
#[test]
fn doubled_names() {
    check_refusal("A", 16, 0);
    check_refusal("E", 16, 0);
    check_refusal("LOW AND E", 16, 8);
    check_refusal("VALUE", 15, 0);
    check_refusal("LOW THRU", 15, 4);
    check_refusal("LOWER", 16, 0);
}

/// A condition is no operand, and IS follows only these.
#[test]
fn is_behind_a_condition() {
    check_refusal("LOW IS NOT ZERO", 15, 4);
    check("B IS LOW", &[2, NAME + 1]);
    check_refusal("E IS", 16, 0);
}

/// "Its literals begin with these."
#[test]
fn literals_begin_with_the_descriptions() {
    let said = read("C = 5 OR B = \"X\"").unwrap();
    assert_eq!(said.bytes, b" 137B125X");
    assert_eq!(said.literals.len(), 5 * 9);
    assert_eq!(said.tokens[2], 65_536 + 7);
    assert_eq!(said.tokens[6], 65_536 + 8);
    assert_eq!(&said.literals[35..], &[3, 7, 1, 0, 1, 2, 8, 1, 0, 0]);
    let said = read("LOW").unwrap();
    assert_eq!((said.literals.len(), said.bytes.len()), (35, 7));
    // The 65th counts the description's seven.
    let text = |count: usize| format!("B ={}", " 1".repeat(count));
    assert!(read(&text(57)).is_ok());
    check_refusal(&text(58), 15, 3 + 2 * 57 + 1);
}

#[test]
fn printed_names() {
    let mut output = [0; 99];
    let mut printed = |tokens: &[u32]| {
        print(DESCRIPTION.as_bytes(), &[], &[], tokens, &mut output)
            .map(|[length]| String::from_utf8_lossy(&output[..length as usize]).to_string())
    };
    let refused = |number, place| Err(Refusal::at(number, place));
    assert_eq!(
        printed(&[WORD + 2, NAME + 1, WORD + 4, NAME]).unwrap(),
        "NOT LOW OR BLANK"
    );
    assert_eq!(printed(&[NAME, NAME + 2]), refused(16, 1));
    assert_eq!(printed(&[NAME + 3]), refused(16, 0));
    assert_eq!(printed(&[NAME + 4]), refused(16, 0));
    assert_eq!(printed(&[1]), refused(16, 0));
    assert_eq!(printed(&[1, NAME + 5]), refused(6, 1));
    assert_eq!(printed(&[6 * 65_536]), refused(6, 0));
}
