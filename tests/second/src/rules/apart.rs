//! Elementary items that lie apart; refusal 19.

use super::tables::{rows, Row};
use super::{refuse, Refusal};

/// "Overlapping elementary items are refused with 19 at the first row that overlaps
/// an earlier one" (02, k).
pub fn check_apart(items: &[u32]) -> Result<(), Refusal> {
    let elementary: Vec<(usize, Row)> = rows(items)
        .enumerate()
        .filter(|(_, row)| !row.is_group())
        .collect();
    for (place, (number, row)) in elementary.iter().enumerate() {
        if elementary[..place]
            .iter()
            .any(|(_, earlier)| share(earlier, row))
        {
            return refuse(19, *number);
        }
    }
    Ok(())
}

/// Whether two rows have a byte in common.
fn share(one: &Row, other: &Row) -> bool {
    one.bytes().any(|byte| other.bytes().contains(&byte))
}
