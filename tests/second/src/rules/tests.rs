//! The sixteen cases of the scope paper, its "also run" list, and refusals.

mod grammar;
mod names;
mod packed;

use super::tokens::{WORD, WORD_AND};
use super::*;
use crate::show::WORDS;

const FALSE: u32 = VERDICT_FALSE;
const TRUE: u32 = VERDICT_TRUE;

/// Four numeric items a, b, c, d of two digits, one behind the other.
const ABCD: [u32; 20] = [3, 0, 2, 0, 2, 3, 2, 2, 0, 2, 3, 4, 2, 0, 2, 3, 6, 2, 0, 2];

fn items_only(items: &[u32]) -> Tables<'_> {
    Tables {
        items,
        ..Tables::default()
    }
}

/// Tokens from words: letters a to h are items 0 to 7, p to s are switches 0 to
/// 3 on, L0 to L3 are literals.
fn tokens(text: &str) -> Vec<u32> {
    text.split_whitespace().map(token).collect()
}

fn token(word: &str) -> u32 {
    if let Some(number) = WORDS.iter().position(|&known| known == word) {
        return WORD + number as u32;
    }
    match word.as_bytes() {
        [letter @ b'a'..=b'h'] => u32::from(letter - b'a'),
        [letter @ b'p'..=b's'] => 2 * 65_536 + u32::from(letter - b'p'),
        [b'L', digit] => 65_536 + u32::from(digit - b'0'),
        _ => panic!("no such word: {word}"),
    }
}

fn expanded(tables: &Tables, tokens: &[u32]) -> Result<Vec<u32>, Refusal> {
    let mut output = [7; 640];
    let count = expand(tables, tokens, &mut output)? as usize;
    assert!(output[count..].iter().all(|&number| number == 7));
    Ok(output[..count].to_vec())
}

fn planned(tables: &Tables, tokens: &[u32]) -> Result<Vec<u32>, Refusal> {
    let mut output = [7; 645];
    let count = plan(tables, tokens, &mut output)? as usize;
    assert!(output[count..].iter().all(|&number| number == 7));
    Ok(output[..count].to_vec())
}

fn check_expansion(text: &str, full: &str) {
    let tables = items_only(&ABCD);
    assert_eq!(expanded(&tables, &tokens(text)), Ok(tokens(full)));
    assert_eq!(
        planned(&tables, &tokens(text)),
        planned(&tables, &tokens(full))
    );
}

fn check_refusal(text: &str, number: u32, place: u32) {
    let tables = items_only(&ABCD);
    let refusal = Refusal::at(number, place);
    assert_eq!(expanded(&tables, &tokens(text)), Err(refusal));
    assert_eq!(planned(&tables, &tokens(text)), Err(refusal));
    assert_eq!(
        judge(&tables, &tokens(text), b"01020304", 0),
        Judged::refused_earlier(refusal)
    );
}

/// Judges, and checks that a run of the plan says the same.
fn counted(tables: &Tables, text: &str, record: &[u8], switches: u8) -> Judged {
    let condition = tokens(text);
    let judged = judge(tables, &condition, record, switches);
    if let Ok(plan) = planned(tables, &condition) {
        assert_eq!(run(tables, &plan, record, switches), judged);
    }
    judged
}

fn judged(tables: &Tables, text: &str, record: &[u8], switches: u8) -> Result<bool, Refusal> {
    counted(tables, text, record, switches).answer
}

fn stopped(number: u32, place: u32, byte: u32) -> Refusal {
    Refusal {
        number,
        place,
        byte,
    }
}

fn check_judged(items: &[u32], record: &[u8], text: &str, answer: bool) {
    assert_eq!(
        judged(&items_only(items), text, record, 0),
        Ok(answer),
        "{text}"
    );
}

#[test]
fn case_01_numbers_to_the_letter() {
    let tables = items_only(&ABCD);
    let condition = tokens("a > b AND NOT < c OR d");
    assert_eq!(
        condition,
        [0, 262149, 1, 262147, 262146, 262150, 2, 262148, 3]
    );
    assert_eq!(
        expanded(&tables, &condition).unwrap(),
        [0, 262149, 1, 262147, 0, 262146, 262150, 2, 262148, 0, 262146, 262150, 3]
    );
    assert_eq!(
        planned(&tables, &condition).unwrap(),
        [0, 5, 1, 1, 2, 0, 38, 2, 65535, 2, 0, 38, 3, 65535, 65534]
    );
}

#[test]
fn case_02_logical_not_is_not_carried() {
    check_expansion("NOT a = b OR c", "NOT a = b OR a = c");
}

#[test]
fn case_03_not_before_joined_relation_is_logical() {
    check_expansion("a = b AND NOT >= c OR d", "a = b AND NOT a >= c OR a >= d");
}

#[test]
fn case_04_not_of_the_relation_is_carried() {
    check_expansion(
        "NOT ( a NOT > b AND c AND NOT d )",
        "NOT ( a NOT > b AND a NOT > c AND NOT a NOT > d )",
    );
}

#[test]
fn cases_05_to_09_refused_with_7() {
    check_refusal("a = b AND ( c OR d )", 7, 6);
    check_refusal("( a = b OR c ) AND d", 7, 9);
    check_refusal("a NOT >= b", 7, 2);
    check_refusal("a = b OR NOT NOT = c", 7, 5);
    check_refusal("a", 7, 1);
}

#[test]
fn case_10_targets_of_four_switches() {
    let plan = planned(&items_only(&[]), &tokens("( p OR NOT q ) AND r AND s")).unwrap();
    let targets: Vec<_> = plan.chunks(5).map(|row| (row[3], row[4])).collect();
    assert_eq!(targets, [(2, 1), (FALSE, 2), (3, FALSE), (TRUE, FALSE)]);
    let firsts: Vec<_> = plan.chunks(5).map(|row| &row[..3]).collect();
    assert_eq!(
        firsts,
        [
            [131072, 0, 0],
            [131073, 0, 0],
            [131074, 0, 0],
            [131075, 0, 0]
        ]
    );
}

#[test]
fn case_11_sign_in_the_last_byte() {
    // a is kind 4; b alphanumeric; c a group; d a number for the value.
    let items = [4, 0, 5, 0, 5, 2, 5, 5, 0, 0, 0, 10, 5, 0, 0, 5, 15, 6, 0, 5];
    let record = b"\x31\x32\x33\x34\x45123451234E-12345";
    check_judged(&items, record, "a = d", true);
    check_judged(&items, record, "a NEGATIVE", true);
    check_judged(&items, record, "a = b", true);
    check_judged(&items, record, "a = c", true);
    check_judged(&items, record, "b = c", false);
}

#[test]
fn case_12_zero_has_one_value() {
    let items = [4, 0, 1, 0, 1, 4, 1, 1, 0, 1];
    for text in ["a = b", "a ZERO", "b ZERO", "b NOT NEGATIVE"] {
        check_judged(&items, &[0x30, 0x40], text, true);
    }
}

#[test]
fn case_13_scales() {
    let items = [3, 0, 3, 2, 3, 3, 3, 2, 1, 2];
    check_judged(&items, b"15015", "a = b", true);
}

#[test]
fn case_14_filling_with_spaces() {
    let items = [2, 0, 3, 0, 0, 2, 3, 4, 0, 0, 2, 7, 4, 0, 0, 2, 11, 4, 0, 0];
    let record = b"BBBBBB BBBABBB\0";
    check_judged(&items, record, "a = b", true);
    check_judged(&items, record, "a < c", true);
    check_judged(&items, record, "a > d", true);
}

#[test]
fn case_15_an_item_not_reached_is_not_read() {
    let tables = items_only(&ABCD);
    let record = b"1212  12";
    assert_eq!(judged(&tables, "a = b OR c = d", record, 0), Ok(true));
    let stop = stopped(13, 0, 4);
    assert_eq!(judged(&tables, "c = d OR a = b", record, 0), Err(stop));
}

#[test]
fn case_16_numeric_guards() {
    check_judged(&ABCD, b"12  1212", "b NUMERIC AND b > a", false);
}

/// "Judge's number is that of the rules' own left-to-right judging" (02, i).
#[test]
fn simple_conditions_judged() {
    let tables = items_only(&ABCD);
    let check = |text: &str, answer: bool, count: u32| {
        let answer = Ok(answer);
        let judged = counted(&tables, text, b"010102  ", 0x80);
        assert_eq!(judged, Judged { answer, count }, "{text}");
    };
    check("a = b", true, 1);
    check("a = b OR d = c", true, 1);
    check("a > b AND d = c OR p", true, 2);
    check("NOT ( q OR p OR d = c ) AND d = c", false, 2);
    check("( q AND d = c OR p ) AND ( a = b OR d = c )", true, 3);
    check("a = b AND c OR NOT p OR q", false, 4);
    check("d NUMERIC AND d = a", false, 1);
    let stops = |text: &str, place, count| {
        let answer = counted(&tables, text, b"010102  ", 0x80);
        assert_eq!(
            (answer.answer.unwrap_err().place, answer.count),
            (place, count)
        );
    };
    stops("d = c", 0, 1);
    stops("a = b AND d = c", 1, 2);
    stops("a > b AND q AND p OR q OR d = c OR p", 4, 3);
    // What is refused before judging has judged nothing.
    assert_eq!(counted(&tables, "a = b", b"0101", 0).count, 0);
    assert_eq!(
        counted(&tables, "a = b OR ALPHABETIC", b"01010101", 0).count,
        0
    );
}

/// "Refusal 13 gives, after the condition's number, the item's first wrong byte
/// as an offset in the record, the subject's fault before the object's" (02, c).
#[test]
fn which_byte() {
    // a kind 3, b kind 4, c kind 5, d kind 6, e alphanumeric, f a group.
    let items = [
        3, 1, 3, 0, 3, 4, 4, 2, 0, 2, 5, 6, 3, 0, 2, 6, 9, 3, 0, 2, 2, 12, 2, 0, 0, 0, 12, 2, 0, 0,
    ];
    let tables = items_only(&items);
    let check = |text: &str, record: &[u8], place, byte| {
        let stop = stopped(13, place, byte);
        assert_eq!(judged(&tables, text, record, 0), Err(stop), "{text}");
    };
    let record = b"*12 4E12-6 7AB";
    check("a = b", record, 0, 3);
    check("b = a", record, 0, 3);
    check("a = c", record, 0, 3);
    check("c = a", record, 0, 6);
    check("d ZERO", record, 0, 10);
    check("e NUMERIC OR b = a", record, 1, 3);
    check("c NEGATIVE", record, 0, 6);
    check("d = e", record, 0, 10);
    check("e = d", record, 0, 10);
    check("b = b AND NOT d", record, 1, 10);
    // Two wrong bytes in one item, and both sides wrong: the first and the left.
    let record = b"*1   4+1+12*12";
    check("a > b", record, 0, 2);
    check("b > a", record, 0, 4);
    check("c > d", record, 0, 8);
    check("d > c", record, 0, 11);
    assert_eq!(judged(&tables, "a < f AND c > f", record, 0), Ok(false));
}

/// "Refuse it with 17, the condition's number and the first wrong byte, when a
/// reached relation uses a kind 1 item against anything but a group and it holds
/// a byte other than a letter or space" (02, g).
#[test]
fn digits_in_a_name_field() {
    // a and b alphabetic, c a group, d alphanumeric, e kind 3, f kind 5.
    let items = [
        1, 1, 3, 0, 0, 1, 4, 2, 0, 0, 0, 6, 2, 0, 0, 2, 8, 2, 0, 0, 3, 10, 2, 0, 2, 5, 12, 2, 0, 1,
    ];
    let literals = [2, 0, 1, 0, 0, 3, 1, 1, 0, 1, 5, 2, 2, 0, 1];
    let tables = Tables {
        literals: &literals,
        bytes: b"B7+7",
        ..items_only(&items)
    };
    let record = b"*Ab7 -12xy12+3";
    let stops = |text: &str, record: &[u8], number, place, byte| {
        let stop = stopped(number, place, byte);
        assert_eq!(judged(&tables, text, record, 0), Err(stop), "{text}");
    };
    for beside in ["d", "e", "f", "L0", "L1", "L2"] {
        stops(&format!("a = {beside}"), record, 17, 0, 3);
        stops(&format!("{beside} NOT > a"), record, 17, 0, 3);
    }
    stops("a = b", record, 17, 0, 3);
    stops("b = a", record, 17, 0, 5);
    stops("c = d OR e = L1 OR b < d", record, 17, 2, 5);
    stops("b = c OR b = a", record, 17, 1, 5);
    // Groups and class words ask for no letters.
    let fine = "a NOT = c AND c > b AND a NOT ALPHABETIC";
    assert_eq!(judged(&tables, fine, record, 0), Ok(true));
    assert_eq!(
        judged(&tables, "NOT a ALPHABETIC-UPPER", record, 0),
        Ok(true)
    );
    // The subject's fault, 13 or 17, before the object's.
    let record = b"*Ab7  12xy 2+3";
    stops("a = e", record, 17, 0, 3);
    stops("e = a", record, 13, 0, 10);
    stops("b = e", record, 13, 0, 10);
    stops("f = a", record, 17, 0, 3);
    // Only letters and spaces.
    let record = b"*Az  Z12xy12+3";
    assert_eq!(
        judged(&tables, "a > b AND > e AND > L2", record, 0),
        Ok(true)
    );
}

/// "Run's is the rows it reaches, at most the plan's" (02, i).
#[test]
fn rows_reached() {
    let on = |switch: u32, targets: [u32; 2]| [131072 + switch, 0, 0, targets[0], targets[1]];
    let plan = [on(0, [2, 1]), on(1, [TRUE, 2]), on(2, [TRUE, FALSE])].concat();
    let tables = items_only(&[]);
    let ran = |switches| {
        let judged = run(&tables, &plan, &[], switches);
        (judged.answer, judged.count)
    };
    assert_eq!(ran(0b1000_0000), (Ok(false), 2));
    assert_eq!(ran(0b0100_0000), (Ok(true), 2));
    assert_eq!(ran(0b0010_0000), (Ok(true), 3));
    assert_eq!(ran(0b1010_0000), (Ok(true), 2));
}

#[test]
fn sixteen_brackets_and_seventeen() {
    let nested = |depth: usize| {
        let text = format!("{}p{}", "( ".repeat(depth), " )".repeat(depth));
        tokens(&text)
    };
    let tables = items_only(&[]);
    assert_eq!(judge(&tables, &nested(16), &[], 0x80).answer, Ok(true));
    let refusal = Refusal::at(8, 16);
    assert_eq!(judge(&tables, &nested(17), &[], 0x80).answer, Err(refusal));
    assert_eq!(planned(&tables, &nested(17)), Err(refusal));
    assert_eq!(expanded(&tables, &nested(17)), Err(refusal));
}

#[test]
fn seven_and_eight_by_place() {
    let open = |depth: usize| "( ".repeat(depth);
    // An unfinished sequence is refused at its end, behind the 17th bracket.
    check_refusal(&open(17), 8, 16);
    check_refusal(&open(16), 7, 16);
    check_refusal(&format!("{}AND", open(17)), 8, 16);
    // The bracket that would be the 17th cannot stand there: a tie.
    check_refusal(&format!("{}a {}", open(16), open(1)), 7, 17);
    check_refusal(&format!("AND {}", open(17)), 7, 0);
    check_refusal("a = b )", 7, 3);
}

#[test]
fn tokens_256_and_257() {
    let tables = items_only(&ABCD);
    let mut condition = tokens("NOT a = b");
    while condition.len() < 256 {
        condition.extend(tokens("AND c"));
    }
    assert_eq!(condition.len(), 256);
    assert_eq!(planned(&tables, &condition).unwrap().len(), 5 * 127);
    condition.push(WORD_AND);
    let refusal = Refusal::at(5, 0);
    assert_eq!(planned(&tables, &condition), Err(refusal));
    assert_eq!(
        judge(&tables, &condition, b"01020304", 0).answer,
        Err(refusal)
    );
    assert_eq!(planned(&tables, &[]), Err(refusal));
}

#[test]
fn longest_expansion_and_longest_plan() {
    let mut condition = tokens("a NOT = b");
    while condition.len() < 256 {
        condition.extend(tokens("AND c"));
    }
    assert_eq!(expanded(&items_only(&ABCD), &condition).unwrap().len(), 634);
    let mut switches = tokens("NOT p");
    while switches.len() < 256 {
        switches.extend(tokens("OR q"));
    }
    assert_eq!(planned(&items_only(&[]), &switches).unwrap().len(), 640);
}

#[test]
fn scale_18_of_18_digits_against_1() {
    let items = [3, 0, 18, 18, 18, 3, 18, 1, 0, 1, 3, 19, 18, 0, 18];
    let mut record = [b'9'; 37];
    record[18] = b'1';
    check_judged(&items, &record, "a < b", true);
    check_judged(&items, &record, "a < c AND c > a AND c > b", true);
    record[18] = b'0';
    check_judged(&items, &record, "a > b AND NOT < b", true);
}

#[test]
fn output_one_number_short() {
    let tables = items_only(&ABCD);
    let condition = tokens("a > b AND NOT < c OR d");
    let mut output = [7; 13];
    let short = |needed| Err(Refusal::at(10, needed));
    assert_eq!(expand(&tables, &condition, &mut output[..12]), short(13));
    assert_eq!(output, [7; 13]);
    assert_eq!(expand(&tables, &condition, &mut output), Ok(13));
    let mut output = [7; 15];
    assert_eq!(plan(&tables, &condition, &mut output[..14]), short(15));
    assert_eq!(output, [7; 15]);
    assert_eq!(plan(&tables, &condition, &mut output), Ok(15));
}

#[test]
fn carry_and_the_words_that_drop_it() {
    check_expansion(
        "a = b AND c < d OR NOT a AND > b OR c",
        "a = b AND c < d OR NOT c < a AND c > b OR c > c",
    );
    check_refusal("a = b AND c NUMERIC AND d", 7, 8);
    check_refusal("a = b AND c NUMERIC AND > d", 7, 7);
    check_refusal("a = b AND c NOT ZERO AND NOT < d", 7, 9);
    check_refusal("a = b AND p AND d", 7, 7);
    check_refusal("a = b AND NOT ( c )", 7, 7);
    check_refusal("a = b AND c NOT >= d", 7, 6);
    check_refusal("a = b AND NOT NUMERIC", 7, 5);
    check_refusal("a = b AND NOT", 7, 5);
    check_refusal("NOT > a", 7, 1);
    check_refusal("> a", 7, 0);
}

#[test]
fn numeric_beside_text_and_group() {
    // a kind 5 with a bad sign, b alphanumeric, c group, d kind 6 of scale 0.
    let items = [5, 0, 3, 0, 2, 2, 3, 2, 0, 0, 0, 5, 3, 0, 0, 6, 8, 3, 0, 2];
    let record = b"*1212*1212-";
    let tables = items_only(&items);
    let stop = stopped(13, 0, 0);
    assert_eq!(judged(&tables, "a = b", record, 0), Err(stop));
    assert_eq!(judged(&tables, "a = c", record, 0), Ok(true));
    assert_eq!(judged(&tables, "d = b", record, 0), Ok(true));
    assert_eq!(
        judged(&tables, "d NEGATIVE AND d NUMERIC", record, 0),
        Ok(true)
    );
    let literals = [5, 0, 3, 0, 2];
    let with_literal = Tables {
        literals: &literals,
        bytes: b"-12",
        ..items_only(&[0, 0, 2, 0, 0])
    };
    assert_eq!(judged(&with_literal, "a = L0", b"12", 0), Ok(true));
}

#[test]
fn class_words() {
    let items = [1, 0, 3, 0, 0, 1, 3, 3, 0, 0, 2, 6, 2, 0, 0, 0, 0, 8, 0, 0];
    let record = b"A ZaB 12";
    check_judged(&items, record, "a ALPHABETIC AND a ALPHABETIC-UPPER", true);
    check_judged(
        &items,
        record,
        "a ALPHABETIC-LOWER OR b ALPHABETIC-UPPER",
        false,
    );
    check_judged(
        &items,
        record,
        "b NOT ALPHABETIC-LOWER AND b ALPHABETIC",
        true,
    );
    check_judged(&items, record, "c NUMERIC AND d NOT ALPHABETIC", true);
}

/// "Add row kind 7 [...]; it is sized, compared and tested for letters as a
/// group, and NUMERIC on it means all digits" (02, b).
#[test]
fn counters_kept_in_groups() {
    // a and b kind 7, c kind 0 over a, d kind 4, e alphabetic with a digit.
    let items = [
        7, 0, 4, 0, 0, 7, 4, 4, 0, 0, 0, 0, 4, 0, 0, 4, 2, 2, 0, 2, 1, 8, 2, 0, 0,
    ];
    let record = b"1234 Az x7";
    let tables = items_only(&items);
    for (text, answer) in [
        ("a NUMERIC", true),
        ("b NUMERIC", false),
        ("b ALPHABETIC", true),
        (
            "b ALPHABETIC-UPPER OR b ALPHABETIC-LOWER OR a ALPHABETIC",
            false,
        ),
        ("a = c AND a > b", true),
        ("d < a AND a > e AND e > b", false),
        ("e > b AND a < e", true),
    ] {
        assert_eq!(judged(&tables, text, record, 0), Ok(answer), "{text}");
    }
    // A numeric item beside it gives its bytes as they lie.
    let record = b"12 E*   12";
    assert_eq!(judged(&tables, "d < a AND d < c", record, 0), Ok(true));
    for text in ["a ZERO", "a POSITIVE", "c NUMERIC"] {
        let refusal = judged(&tables, text, record, 0);
        assert_eq!(refusal, Err(Refusal::at(9, 0)), "{text}");
    }
}

#[test]
fn table_refusals() {
    let refusal = |items: &[u32], literals: &[u32], bytes: &[u8]| {
        let tables = Tables {
            items,
            literals,
            bytes,
            ..Tables::default()
        };
        let judged = judge(&tables, &tokens("p"), &[0; 80_000], 0);
        let refusal = judged.answer.unwrap_err();
        assert_eq!(
            run(&tables, &[131072, 0, 0, TRUE, FALSE], &[0; 80_000], 0),
            judged
        );
        (refusal.number, refusal.place)
    };
    assert_eq!(refusal(&[0; 4], &[], &[]), (1, 0));
    assert_eq!(refusal(&[0; 325], &[], &[]), (1, 0));
    let fine = [3, 0, 1, 0, 1];
    let bad_rows: [[u32; 5]; 31] = [
        [0, 0, 0, 0, 0],
        [0, 0, 65_536, 0, 0],
        [0, 0, 1, 1, 0],
        [0, 0, 1, 0, 1],
        [0, 65_536, 1, 0, 0],
        [1, 0, 257, 0, 0],
        [2, 0, 0, 0, 0],
        [2, 0, 1, 1, 0],
        [2, 0, 1, 0, 1],
        [3, 0, 19, 0, 19],
        [3, 0, 0, 0, 0],
        [3, 0, 2, 0, 1],
        [3, 0, 2, 0, 3],
        [4, 0, 5, 6, 5],
        [5, 0, 1, 0, 0],
        [5, 0, 3, 0, 3],
        [6, 0, 20, 0, 19],
        [6, 0, 5, 5, 4],
        [7, 0, 65_536, 0, 0],
        [7, 0, 0, 0, 0],
        [7, 0, 1, 1, 0],
        [8, 0, 1, 0, 0],
        [8, 0, 2, 0, 1],
        [8, 0, 1, 2, 1],
        [8, 0, 10, 0, 19],
        [8, 0, 11, 0, 20],
        [9, 0, 2, 0, 4],
        [9, 0, 2, 4, 3],
        [9, 0, 0, 0, 1],
        [9, 65_536, 1, 0, 1],
        [10, 0, 1, 0, 1],
    ];
    for row in bad_rows {
        assert_eq!(refusal(&[fine, row].concat(), &[], &[]), (2, 1));
        assert_eq!(refusal(&fine, &[fine, row].concat(), &[b'0'; 99]), (4, 1));
    }
    assert_eq!(refusal(&[], &[2, 0, 1, 0], b"0"), (3, 0));
    assert_eq!(refusal(&[], &[3, 0, 2, 0, 2], b"0"), (4, 0));
    assert_eq!(refusal(&[], &[3, 0, 2, 0, 2], b"0 "), (4, 0));
    assert_eq!(refusal(&[], &[5, 0, 2, 0, 1], b"00"), (4, 0));
    for (kind, digits) in [(0, 0), (1, 0), (4, 2), (6, 1), (7, 0), (8, 2), (9, 2)] {
        assert_eq!(refusal(&[], &[kind, 0, 2, 0, digits], b"\x03\x13"), (4, 0));
    }
}

#[test]
fn record_and_plan_refusals() {
    let tables = items_only(&ABCD);
    let refusal = |number, place| Judged::refused_earlier(Refusal::at(number, place));
    assert_eq!(judge(&tables, &tokens("p"), b"0102030", 0), refusal(12, 3));
    let check = |plan: &[u32], place| {
        assert_eq!(run(&tables, plan, b"01020304", 0), refusal(11, place));
    };
    check(&[], 0);
    check(&[0, 7, 1, TRUE], 0);
    check(&[131072, 0, 0, TRUE, FALSE].repeat(129), 0);
    for row in [
        [0, 7, 1, 1, TRUE],
        [0, 7, 1, TRUE, 2],
        [0, 7, 1, TRUE, 65_536],
        [0, 40, 1, TRUE, FALSE],
        [0, 41, 1, TRUE, FALSE],
        [0, 0, 0, TRUE, FALSE],
        [0, 17, 0, TRUE, FALSE],
        [0, 10, 1, TRUE, FALSE],
        [0, 11, 0, TRUE, FALSE],
        [0, 7, 131072, TRUE, FALSE],
        [0, 7, 4, TRUE, FALSE],
        [131080, 0, 0, TRUE, FALSE],
        [131072, 0, 1, TRUE, FALSE],
        [131072, 7, 0, TRUE, FALSE],
        [262144, 0, 0, TRUE, FALSE],
    ] {
        check(&[&[131072, 0, 0, 1, FALSE], &row[..]].concat(), 1);
    }
}

/// The expanded form holds the condition's tokens in their order, and
/// expanding it again changes nothing.
#[test]
fn expanded_forms_of_generated_cases() {
    let mut abbreviated = 0;
    for index in 0..20_000 {
        let case = crate::generate::case(17, index);
        let tables = case.tables();
        let Ok(full) = expanded(&tables, &case.tokens) else {
            continue;
        };
        let mut rest = full.iter();
        let in_order = case
            .tokens
            .iter()
            .all(|token| rest.any(|other| other == token));
        assert!(in_order, "case {index}");
        if full.len() <= 256 {
            assert_eq!(expanded(&tables, &full), Ok(full.clone()), "case {index}");
        }
        abbreviated += u32::from(full.len() > case.tokens.len());
    }
    assert!(abbreviated > 2_000);
}
