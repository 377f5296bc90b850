//! What the generated cases are sure to hold.

use super::*;
use crate::answers;
use crate::rules::content::{first_no_letter, first_wrong};
use crate::rules::tables::Row;
use crate::rules::tokens::LITERAL;
use crate::rules::{VERDICT_FALSE, VERDICT_TRUE};
use std::collections::HashSet;

/// The content of the item that a token names, if it is one, with its row.
fn item(case: &Case, token: u32) -> Option<(&[u32], &[u8])> {
    let start = ROW * token as usize;
    let row = case.items.get(start..start + ROW)?;
    let start = row[1] as usize;
    Some((row, &case.record[start..start + row[2] as usize]))
}

/// A stop of a run: its number, and of the row's sides those that are wrong.
struct Stopped<'a> {
    number: u32,
    wrong: Vec<Side<'a>>,
}

/// Side 0 is the subject, side 1 the object.
struct Side<'a> {
    side: u32,
    row: &'a [u32],
    place: usize,
    byte: u8,
    /// The other side's kind, 10 more for a literal's; 99 where there is none.
    beside: u32,
}

fn first_fault(row: &[u32], content: &[u8]) -> Option<usize> {
    match row[0] {
        1 => first_no_letter(content),
        _ => first_wrong(&Row::of(row), content),
    }
}

fn stopped(case: &Case, refusal: Refusal) -> Stopped<'_> {
    let row = &case.plan[5 * refusal.place as usize..][..5];
    let tokens = match (row[0] >> 16, row[1] % 32) {
        (5, _) => vec![case.names[NAME_ROW * (row[0] - NAME) as usize]],
        (_, 5..=9) => vec![row[0], row[2]],
        _ => vec![row[0]],
    };
    let mut wrong = Vec::new();
    for (side, &token) in tokens.iter().enumerate() {
        let Some((row, content)) = item(case, token) else {
            continue;
        };
        if let Some(place) = first_fault(row, content) {
            let other = tokens.get(1 - side);
            wrong.push(Side {
                side: side as u32,
                row,
                place,
                byte: content[place],
                beside: other.map_or(99, |&token| {
                    let facts = Facts::of(case, token);
                    facts.kind + if facts.literal { 10 } else { 0 }
                }),
            });
        }
    }
    let number = refusal.number;
    assert_eq!(refusal.byte, wrong[0].row[1] + wrong[0].place as u32);
    Stopped { number, wrong }
}

/// The runs of so many cases that stop.
fn each_stop(seed: u64, count: u64, mut look: impl FnMut(&Stopped)) {
    for index in 0..count {
        let case = case(seed, index);
        match answers::answer(&case).run.answer {
            Err(refusal) if matches!(refusal.number, 13 | 17) => look(&stopped(&case, refusal)),
            _ => {}
        }
    }
}

/// Runs that stop with 13: every place of every size of the numeric kinds is the
/// first wrong byte, in subjects and in objects (in one of them where there
/// are many digits), some with both wrong; of packed items every half is.
#[test]
fn wrong_bytes_at_every_place() {
    let mut seen = HashSet::new();
    let mut halves = HashSet::new();
    let mut both = 0;
    each_stop(23, 300_000, |stop| {
        if stop.number == 13 {
            let Side {
                side,
                row,
                place,
                byte,
                ..
            } = stop.wrong[0];
            seen.insert((side, row[0], row[4], place));
            halves.insert((row[4], first_wrong_half(row, place, byte)));
            both += u32::from(stop.wrong.len() == 2);
        }
    });
    for kind in [3, 4, 5, 6, 8, 9] {
        for digits in (1..=5).chain(16..=18) {
            let size = tables::size(kind, digits);
            for place in 0..size as usize {
                let seen_in = |side| seen.contains(&(side, kind, digits, place));
                let often = digits <= 5;
                let enough = seen_in(0) && seen_in(1) || !often && (seen_in(0) || seen_in(1));
                assert!(enough, "kind {kind}, digits {digits}, place {place}");
            }
        }
    }
    for digits in 1..=18 {
        for half in 0..2 * tables::size(8, digits) {
            assert!(halves.contains(&(digits, half)), "{digits} {half}");
        }
    }
    assert!(both > 1_000, "{both}");
}

/// Of a packed item's first wrong byte; of another item none that is asked for.
fn first_wrong_half(row: &[u32], place: usize, byte: u8) -> u32 {
    let left_fits = match (place, row[4] % 2) {
        (0, 0) => byte < 0x10,
        _ => byte < 0xA0,
    };
    match row[0] {
        8 | 9 => 2 * place as u32 + u32::from(left_fits),
        _ => u32::MAX,
    }
}

/// Runs that stop with 17: every place of sizes 1 to 6, beside every kind of
/// item but the group and every kind of literal (10 more), digits, hyphens
/// and bytes over 127; both sides wrong with 13 and 17 either way; items of
/// condition-names too.
#[test]
fn no_letters_at_every_place() {
    let mut places = HashSet::new();
    let mut besides = HashSet::new();
    let mut sorts = HashSet::new();
    let mut pairs = HashSet::new();
    let mut names = 0;
    each_stop(29, 100_000, |stop| {
        if let [first, second] = &stop.wrong[..] {
            pairs.insert((stop.number, first.row[0] == 1, second.row[0] == 1));
        }
        if stop.number != 17 {
            return;
        }
        let Side {
            side,
            row,
            place,
            byte,
            beside,
        } = stop.wrong[0];
        assert_eq!(row[0], 1);
        places.insert((side, row[2], place));
        match beside {
            99 => names += 1,
            beside => drop(besides.insert((side, beside))),
        }
        sorts.insert(match byte {
            b'0'..=b'9' => "digit",
            b'-' => "hyphen",
            128.. => "over 127",
            _ => "other",
        });
    });
    for side in [0, 1] {
        for size in 1..=6 {
            for place in 0..size as usize {
                assert!(places.contains(&(side, size, place)));
            }
        }
        for beside in [1, 2, 3, 4, 5, 6, 12, 13, 15] {
            assert!(besides.contains(&(side, beside)), "{side} {beside}");
        }
    }
    assert_eq!(besides.len(), 18);
    assert!(names > 50, "{names}");
    assert_eq!(sorts.len(), 4);
    let both = [
        (17, true, false),
        (13, false, true),
        (17, true, true),
        (13, false, false),
    ];
    assert_eq!(pairs, HashSet::from(both));
}

#[test]
fn same_seed_same_case() {
    for index in 0..500 {
        assert_eq!(case(3, index), case(3, index));
    }
    assert_ne!(case(3, 0), case(4, 0));
    assert_ne!(case(3, 0), case(3, 1));
}

/// Class words on groups of kind 7 and comparisons with every kind of item, both
/// true and false.
#[test]
fn groups_of_kind_7() {
    let mut seen = HashSet::new();
    for index in 0..40_000 {
        let case = case(31, index);
        let Ok(_) = answers::answer(&case).run.answer else {
            continue;
        };
        for row in case.plan.chunks(5) {
            let Some((item, _)) = item(&case, row[0]).filter(|(item, _)| item[0] == 7) else {
                continue;
            };
            assert_eq!(item[3], 0);
            let beside = match row[1] % 32 {
                5..=9 => 20 + Facts::of(&case, row[2]).kind,
                word => word,
            };
            let alone = [row[0], row[1], row[2], VERDICT_TRUE, VERDICT_FALSE];
            let judged = rules::run(&case.tables(), &alone, &case.record, case.switches);
            seen.insert((beside, judged.answer.map_err(|refusal| refusal.number)));
        }
    }
    for wanted in [10, 11, 12, 13, 20, 21, 22, 23, 24, 25, 26, 27] {
        for answer in [Ok(true), Ok(false)] {
            assert!(seen.contains(&(wanted, answer)), "{wanted} {answer:?}");
        }
    }
    assert_eq!(seen.len(), 24);
}

/// Condition-names over items of every kind, true and false, with values and with
/// ranges of numbers and of texts where they may be compared; stops by 13 and 17;
/// unsound tables.
#[test]
fn condition_names() {
    let mut seen = HashSet::new();
    let (mut refused, mut stopped) = (0, HashSet::new());
    for index in 0..60_000 {
        let case = case(37, index);
        if case.names.is_empty() || case.record.len() > 2_000 {
            continue;
        }
        for place in 0..(case.names.len() / NAME_ROW) as u32 {
            let plan = [NAME + place, 0, 0, VERDICT_TRUE, VERDICT_FALSE];
            match rules::run(&case.tables(), &plan, &case.record, 0).answer {
                Ok(truth) => {
                    let row = &case.names[NAME_ROW * place as usize..][..NAME_ROW];
                    let kind = Facts::of(&case, row[0]).kind;
                    let numeric = Facts::of(&case, LITERAL + row[2]).numeric();
                    seen.insert((kind, numeric, row[2] == row[3], truth));
                }
                Err(Refusal { number: 18, .. }) => refused += 1,
                Err(refusal) => drop(stopped.insert(refusal.number)),
            }
        }
    }
    for kind in 0..=9 {
        for truth in [true, false] {
            for alone in [true, false] {
                assert!(seen.contains(&(kind, true, alone, truth)), "{kind}");
                let text = seen.contains(&(kind, false, alone, truth));
                assert!(text || kind >= 8, "{kind}");
            }
        }
    }
    assert!(refused > 1_000, "{refused}");
    assert!(stopped.contains(&13) && stopped.contains(&17));
}
