//! Random cases of what a rule may look at.

use super::case::Case;
use super::{items_judged, items_run, named_items, Items};
use crate::case::Case as Lent;
use crate::generate::records::{cut, laid_out, room};
use crate::generate::{damage_one_table, with_condition};
use crate::random::Random;
use crate::rules::tables::rows;

/// Case `index` of a seed.
pub fn case(seed: u64, index: u64) -> Case {
    let mut random = Random::new(seed ^ 0x100C_ED00, index);
    let laid = laid_out(&mut random, 100);
    let mut lent = with_condition(&mut random, laid);
    cut(&mut random, &mut lent.record);
    if random.chance(70) {
        damage_one_table(&mut random, &mut lent);
    }
    lent.switches = random.any() as u8;
    let tables = lent.tables();
    let judged = items_judged(&tables, &lent.tokens, &lent.record, lent.switches);
    let ran = items_run(&tables, &lent.plan, &lent.record, lent.switches);
    let named = named_items(&tables, &lent.tokens, &mut [0; 64]);
    let count = |items: &Result<Items, _>| items.as_ref().map_or(3, |items| items.len() as u32);
    let needed = [
        count(&judged),
        count(&ran),
        named.map_or(3, |[count]| count),
    ];
    let mut items = judged.unwrap_or_default();
    items.extend(ran.unwrap_or_default());
    let other = changed_elsewhere(&mut random, &lent, &items);
    let rooms = needed.map(|needed| room(&mut random, needed));
    Case { lent, other, rooms }
}

/// A record with other bytes in no byte of these items.
fn changed_elsewhere(random: &mut Random, lent: &Lent, items: &Items) -> Vec<u8> {
    let mut kept = vec![false; lent.record.len()];
    for (number, row) in (0..).zip(rows(&lent.items)) {
        if items.contains(&number) {
            kept[row.bytes()].fill(true);
        }
    }
    let often = random.pick(&[100, 500, 1000]);
    let mut other = lent.record.clone();
    for (byte, kept) in other.iter_mut().zip(kept) {
        if !kept && random.chance(often) {
            let any = random.any() as u8;
            *byte = random.pick(&[b' ', b'0', b'9', b'A', b'z', any]);
        }
    }
    other
}
