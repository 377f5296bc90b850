//! The printer: tokens as words again.

use super::names::Names;
use crate::rules::tables::{check_literals, Row, Tables, ROW};
use crate::rules::tokens::{check_each_token, exists, kind_of};
use crate::rules::Refusal;
use crate::show::WORDS;

/// The text, or refusals 3 to 6 and 16: "6 for an off switch, 16 for FILLER or a
/// doubled name at its token".
pub fn text(names: &Names, tables: &Tables, tokens: &[u32]) -> Result<Vec<u8>, Refusal> {
    check_literals(tables)?;
    check_each_token(tokens, |token| exists(tables, token))?;
    let mut words = Vec::new();
    for (place, &token) in tokens.iter().enumerate() {
        match word(names, tables, token) {
            Some(word) => words.push(word),
            None => return Err(Refusal::at(16, place as u32)),
        }
    }
    Ok(words.join(&b' '))
}

/// A token that exists, as a word; None where it has no name.
fn word(names: &Names, tables: &Tables, token: u32) -> Option<Vec<u8>> {
    let v = token & 0xFFFF;
    match kind_of(token) {
        0 | 5 => names.name(token).map(<[u8]>::to_vec),
        1 => Some(literal(tables, v as usize)),
        2 => Some(format!("UPSI-{v}").into_bytes()),
        _ => Some(WORDS[v as usize].as_bytes().to_vec()),
    }
}

/// A quoted text with its quotes doubled, or a number with its point before the
/// last digits, as many as the scale says.
fn literal(tables: &Tables, number: usize) -> Vec<u8> {
    let row = Row::of(&tables.literals[ROW * number..][..ROW]);
    let start = row.offset as usize;
    let content = &tables.bytes[start..start + row.size as usize];
    if row.kind == 2 {
        let quotes = content.split(|&byte| byte == b'"').collect::<Vec<_>>();
        return [b"\"", &quotes.join(&b"\"\""[..])[..], b"\""].concat();
    }
    let (before, behind) = content.split_at(content.len() - row.scale as usize);
    let point: &[u8] = if behind.is_empty() { b"" } else { b"." };
    [before, point, behind].concat()
}
