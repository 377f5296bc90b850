//! Tokens and the rows they name; refusals 5 and 6.

use super::names::NAME_ROW;
use super::tables::{Row, Tables, ROW};
use super::{refuse, Edition, Refusal};

/// "A token is kind × 65,536 + v".
pub const LITERAL: u32 = 65_536;
/// "Add token kind 5 for a condition-name" (02, h).
pub const NAME: u32 = 5 * 65_536;
/// The words as tokens.
pub const WORD: u32 = 4 * 65_536;
pub const WORD_OPEN: u32 = WORD;
pub const WORD_CLOSE: u32 = WORD + 1;
pub const WORD_NOT: u32 = WORD + 2;
pub const WORD_AND: u32 = WORD + 3;
pub const WORD_OR: u32 = WORD + 4;

pub fn kind_of(token: u32) -> u32 {
    token >> 16
}

pub fn v_of(token: u32) -> u32 {
    token & 0xFFFF
}

pub fn is_item(operand: u32) -> bool {
    kind_of(operand) == 0
}

pub fn row_of(tables: &Tables, operand: u32) -> Row {
    let table = match kind_of(operand) {
        0 => tables.items,
        _ => tables.literals,
    };
    let start = ROW * v_of(operand) as usize;
    Row::of(&table[start..start + ROW])
}

/// 5: "0 tokens or over 256", place 0; 6: "no such token, or v beyond its
/// table", "first such token".
pub fn check_tokens(tables: &Tables, tokens: &[u32]) -> Result<(), Refusal> {
    check_each_token(tokens, |token| exists(tables, token))
}

pub fn check_each_token(tokens: &[u32], exists: impl Fn(u32) -> bool) -> Result<(), Refusal> {
    if tokens.is_empty() || tokens.len() > 256 {
        return refuse(5, 0);
    }
    match tokens.iter().position(|&token| !exists(token)) {
        Some(place) => refuse(6, place),
        None => Ok(()),
    }
}

/// The table of token kinds: items, literals, switches "(v 0 to 7)", words 0 to 16,
/// condition-names (02, h); "token kind 3 is retired" (02, l).
pub fn exists(tables: &Tables, token: u32) -> bool {
    match kind_of(token) {
        0 | 1 => operand_exists(tables, token),
        2 => v_of(token) <= 7,
        3 => v_of(token) <= 7 && tables.edition == Edition::WithOffSwitches,
        4 => v_of(token) <= 16,
        5 => (v_of(token) as usize) < tables.names.len() / NAME_ROW,
        _ => false,
    }
}

pub fn operand_exists(tables: &Tables, token: u32) -> bool {
    let table = match kind_of(token) {
        0 => tables.items,
        1 => tables.literals,
        _ => return false,
    };
    (v_of(token) as usize) < table.len() / ROW
}
