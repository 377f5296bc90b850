//! Mending blank meters (02, m), written from document 02 alone.

pub mod case;
#[cfg(feature = "library")]
pub mod compare;
mod generate;
#[cfg(test)]
mod tests;

use crate::rules::apart::check_apart;
use crate::rules::content::valid_content;
use crate::rules::tables::{check_items, check_record, rows, Row};
use crate::rules::{check_room, Refusal};

/// "A salvage call over a record [...]. It lists each changed offset with its old
/// and new byte, three numbers, in rising order." "It refuses with 1, 2, 19 as k)
/// does, 12, then 10 for the list; every refusal leaves the record unchanged."
pub fn mend(items: &[u32], record: &mut [u8], output: &mut [u32]) -> Result<[u32; 1], Refusal> {
    let mended = mended(items, record)?;
    let changed = (0..)
        .zip(record.iter().zip(&mended))
        .filter(|(_, (old, new))| old != new);
    let changes: Vec<u32> = changed
        .flat_map(|(offset, (&old, &new))| [offset, u32::from(old), u32::from(new)])
        .collect();
    check_room(output.len(), changes.len())?;
    output[..changes.len()].copy_from_slice(&changes);
    record.copy_from_slice(&mended);
    Ok([changes.len() as u32])
}

/// The record as it is afterwards.
fn mended(items: &[u32], record: &[u8]) -> Result<Vec<u8>, Refusal> {
    check_items(items)?;
    check_apart(items)?;
    check_record(items, record)?;
    let mut mended = record.to_vec();
    for row in rows(items).filter(|row| matches!(row.kind, 3..=6)) {
        let bytes = filled(&row, &record[row.bytes()]);
        if valid_content(&row, &bytes) {
            mended[row.bytes()].copy_from_slice(&bytes);
        }
    }
    Ok(mended)
}

/// "Spaces leading its digit bytes, before a digit (kind 4's last byte counts as
/// one), and a sign byte of space in a separate sign, become 0 and +".
fn filled(row: &Row, bytes: &[u8]) -> Vec<u8> {
    let (before, digits, behind) = match row.kind {
        5 => (&bytes[..1], &bytes[1..], &[][..]),
        6 => {
            let (digits, sign) = bytes.split_at(bytes.len() - 1);
            (&[][..], digits, sign)
        }
        _ => (&[][..], bytes, &[][..]),
    };
    let leading = digits.iter().take_while(|&&byte| byte == b' ').count();
    let digits = match leading {
        all if all == digits.len() => digits.to_vec(),
        _ => [vec![b'0'; leading], digits[leading..].to_vec()].concat(),
    };
    let signed = |sign: &[u8]| {
        sign.iter()
            .map(|&byte| if byte == b' ' { b'+' } else { byte })
            .collect::<Vec<u8>>()
    };
    [signed(before), digits, signed(behind)].concat()
}
