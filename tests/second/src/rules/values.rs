//! Truth of one simple condition on a record and a switch byte.

use super::content::{
    all_digits, digits, first_no_letter, first_wrong, valid_content, value, Digits,
};
use super::names::name_of;
use super::parts::Simple;
use super::tables::{Row, Tables};
use super::tokens::{is_item, kind_of, row_of, v_of, LITERAL};
use super::{Refusal, WITH_NOT};
use std::cmp::Ordering;
use std::iter;

/// An operand: its row and its bytes, lent from the record or the literal bytes.
#[derive(Clone, Copy)]
struct Operand<'a> {
    row: Row,
    item: bool,
    bytes: &'a [u8],
}

impl Operand<'_> {
    /// The stop with a wrong byte at a place of this item.
    fn stop(&self, number: u32, place: usize) -> Stop {
        let byte = self.row.offset + place as u32;
        Stop { number, byte }
    }
}

fn operand<'a>(tables: &Tables<'a>, token: u32, record: &'a [u8]) -> Operand<'a> {
    let row = row_of(tables, token);
    let item = is_item(token);
    let source = if item { record } else { tables.bytes };
    let start = row.offset as usize;
    let bytes = &source[start..start + row.size as usize];
    Operand { row, item, bytes }
}

/// What stops all judging: a refusal's number, and "the item's first wrong byte
/// as an offset in the record" (02, c).
#[derive(Clone, Copy, Debug, PartialEq, Eq)]
pub struct Stop {
    pub number: u32,
    pub byte: u32,
}

impl Stop {
    /// "Refusal 13 gives, after the condition's number, the item's first wrong
    /// byte" (02, c); for run the row's number.
    pub fn at(self, place: usize) -> Refusal {
        Refusal {
            number: self.number,
            place: place as u32,
            byte: self.byte,
        }
    }
}

/// "A simple condition gives true, false or its stop." "A reached relation or
/// sign condition that uses a numeric item's value or digits with invalid
/// content stops all with refusal 13. Class conditions never stop." 17: "a
/// reached relation uses a kind 1 item against anything but a group and it
/// holds a byte other than a letter or space" (02, g).
pub fn test(tables: &Tables, simple: &Simple, record: &[u8], switches: u8) -> Result<bool, Stop> {
    let subject = || operand(tables, simple.subject, record);
    let object = || operand(tables, simple.object, record);
    let word = simple.relation % WITH_NOT;
    let holds = match word {
        0 if kind_of(simple.subject) == 5 => name_holds(tables, simple.subject, record)?,
        0 => switch_holds(simple.subject, switches),
        5..=9 => relation_holds(word, compare(&subject(), &object())?),
        10 => numeric_holds(&subject()),
        11..=13 => alphabetic_holds(word, subject().bytes),
        _ => sign_holds(word, number_of(&subject())?),
    };
    Ok(holds != (simple.relation >= WITH_NOT))
}

/// "The switch byte numbers its bits from the left: switch 0 is hex 80, switch
/// 7 hex 01." Kind 2 asks for on, kind 3 for off.
fn switch_holds(token: u32, switches: u8) -> bool {
    let on = switches & (0x80 >> v_of(token)) != 0;
    on == (kind_of(token) == 2)
}

/// "True if the item equals one value or lies in one range by 01's comparison";
/// "an invalid item gives 13 or 17" (02, h): whichever literal it stands beside.
fn name_holds(tables: &Tables, token: u32, record: &[u8]) -> Result<bool, Stop> {
    let name = name_of(tables, token);
    let item = operand(tables, name.item, record);
    let beside = |row: u32| compare(&item, &operand(tables, LITERAL + row, record));
    for [low, high] in name.pairs() {
        if beside(low)? != Ordering::Less && beside(high)? != Ordering::Greater {
            return Ok(true);
        }
    }
    Ok(false)
}

/// Whether two literals are the ends of a range: both numeric or neither, and the
/// low one not above the high one, "by 01's comparison" of the two.
pub fn literals_ordered(tables: &Tables, pair: [u32; 2]) -> bool {
    let [low, high] = pair.map(|row| operand(tables, LITERAL + row, &[]));
    low.row.numeric() == high.row.numeric()
        && compare(&low, &high).is_ok_and(|order| order != Ordering::Greater)
}

/// Words 5 to 9: > < = >= <=.
fn relation_holds(word: u32, order: Ordering) -> bool {
    match word {
        5 => order == Ordering::Greater,
        6 => order == Ordering::Less,
        7 => order == Ordering::Equal,
        8 => order != Ordering::Less,
        _ => order != Ordering::Greater,
    }
}

/// "NUMERIC on kind 2 means all digits; on 3 to 6, valid content." On kind 7
/// "NUMERIC means all digits" (02, b); on packed items it is "as 001 has it".
fn numeric_holds(operand: &Operand) -> bool {
    match operand.row.kind {
        2 | 7 => all_digits(operand.bytes),
        _ => valid_content(&operand.row, operand.bytes),
    }
}

/// "ALPHABETIC: A to Z, a to z, space; UPPER and LOWER: that case and space."
fn alphabetic_holds(word: u32, bytes: &[u8]) -> bool {
    bytes.iter().all(|&byte| match byte {
        b' ' => true,
        b'A'..=b'Z' => word != 12,
        b'a'..=b'z' => word != 13,
        _ => false,
    })
}

/// "Signs compare the value with 0." Words 14 to 16: POSITIVE, NEGATIVE, ZERO.
fn sign_holds(word: u32, value: i128) -> bool {
    match word {
        14 => value > 0,
        15 => value < 0,
        _ => value == 0,
    }
}

/// "Two numeric sides: with digit values D1, D2 (signed) and scales s1, s2,
/// compare D1 × 10^s2 with D2 × 10^s1 as whole numbers." Both products stay
/// below 10^36. "Other pairs: compare bytes from the left as unsigned numbers,
/// the shorter side filled on the right with hex 20." "In one relation the
/// subject's fault, 13 or 17, comes before the object's" (02, g): the left side
/// is asked first.
fn compare(left: &Operand, right: &Operand) -> Result<Ordering, Stop> {
    if left.row.numeric() && right.row.numeric() {
        let scaled = |side: &Operand, scale| Ok(number_of(side)? * 10_i128.pow(scale));
        let left_product = scaled(left, right.row.scale)?;
        return Ok(left_product.cmp(&scaled(right, left.row.scale)?));
    }
    let left_text = characters(left, right)?;
    let right_text = characters(right, left)?;
    Ok(compare_filled(left_text.bytes(), right_text.bytes()))
}

fn compare_filled(left: &[u8], right: &[u8]) -> Ordering {
    let length = left.len().max(right.len());
    filled(left, length).cmp(filled(right, length))
}

fn filled(bytes: &[u8], length: usize) -> impl Iterator<Item = u8> + '_ {
    bytes.iter().copied().chain(iter::repeat(0x20)).take(length)
}

/// What a side gives as characters: its own bytes, or digits picked out.
enum Characters<'a> {
    Lent(&'a [u8]),
    Picked(Digits),
}

impl Characters<'_> {
    fn bytes(&self) -> &[u8] {
        match self {
            Characters::Lent(bytes) => bytes,
            Characters::Picked(digits) => digits.bytes(),
        }
    }
}

/// "A numeric side beside a kind 1 or 2 operand gives its digits as characters,
/// without sign. A numeric item beside a group gives its bytes as they lie,
/// unchecked. A numeric literal gives its digits in both cases."
fn characters<'a>(side: &Operand<'a>, beside: &Operand) -> Result<Characters<'a>, Stop> {
    let as_they_lie = !side.row.numeric() || (side.item && beside.row.is_group());
    if as_they_lie {
        check_letters(side, beside)?;
        return Ok(Characters::Lent(side.bytes));
    }
    Ok(Characters::Picked(digits_of(side)?))
}

/// 17, which literals cannot give: none is of kind 1.
fn check_letters(side: &Operand, beside: &Operand) -> Result<(), Stop> {
    if side.row.kind != 1 || beside.row.is_group() {
        return Ok(());
    }
    match first_no_letter(side.bytes) {
        None => Ok(()),
        Some(place) => Err(side.stop(17, place)),
    }
}

/// Stops at invalid content.
fn digits_of(operand: &Operand) -> Result<Digits, Stop> {
    let Operand { row, bytes, .. } = operand;
    match first_wrong(row, bytes) {
        None => Ok(digits(row, bytes)),
        Some(place) => Err(operand.stop(13, place)),
    }
}

/// The signed digit value, or the stop at invalid content.
fn number_of(operand: &Operand) -> Result<i128, Stop> {
    let Operand { row, bytes, .. } = operand;
    match value(row, bytes) {
        Some(value) => Ok(i128::from(value)),
        None => Err(operand.stop(13, first_wrong(row, bytes).unwrap_or(0))),
    }
}
