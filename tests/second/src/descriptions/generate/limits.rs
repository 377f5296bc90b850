//! Texts at the limits: sizes, sums, rows, bytes, names, counts of many digits,
//! condition-names and their values.

use super::writer::Writer;
use crate::random::Random;

pub fn text(random: &mut Random) -> Vec<u8> {
    match random.below(18) {
        0..=2 => sizes(random),
        3..=5 => sums(random),
        6..=7 => many_rows(random),
        8..=9 | 17 => long_text(random),
        10 => long_counts(random),
        12..=13 => many_conditions(random),
        14..=16 => conditions(random),
        _ => levels(random),
    }
}

/// One picture at its limit, an entry before and behind.
fn sizes(random: &mut Random) -> Vec<u8> {
    let around = |random: &mut Random, limit: u32| limit + random.below(3) - 1;
    let mut writer = Writer::new(random);
    writer.elementary(77);
    writer.begin(1);
    let picture = match writer.random.below(8) {
        0 => format!("X({})", around(writer.random, 256)),
        1 => format!("AA({})", around(writer.random, 255)),
        2 => format!("9({})", around(writer.random, 18)),
        3 => format!("9({})V9(9)", around(writer.random, 9)),
        4 => format!("SV9({})", around(writer.random, 18)),
        5 => format!("9({}) COMP-3", around(writer.random, 18)),
        6 => format!("S9V9({}) COMP-3", around(writer.random, 17)),
        _ => {
            let side = writer.random.pick(&["LEADING", "TRAILING"]);
            format!("S9({}) SIGN {side} SEPARATE", around(writer.random, 18))
        }
    };
    writer.put(&format!(" PIC {picture}."));
    if writer.random.chance(700) {
        writer.blank();
        writer.elementary(1);
    }
    writer.finish()
}

/// Members whose sizes add up to about 65,535, in groups of all sorts.
fn sums(random: &mut Random) -> Vec<u8> {
    const SHAPES: [&[(u32, Content)]; 6] = {
        use Content::*;
        [
            &[(1, Group), (2, First), (2, Second)],
            &[(1, Group), (2, Group), (3, First), (2, Second)],
            &[(1, Group), (2, First), (1, Group), (2, Second)],
            &[(1, First), (1, Group), (5, Second)],
            &[(1, Group), (2, Group), (3, First), (3, Second), (2, One)],
            &[(1, Group), (9, First), (77, Second), (1, One)],
        ]
    };
    let first = random.pick(&[1, 256, 257, 32_767, 60_000, 65_533, 65_535]);
    let second = (65_534 + random.below(3)).saturating_sub(first).max(1);
    let mut writer = Writer::new(random);
    for &(level, content) in writer.random.pick(&SHAPES) {
        writer.begin(level);
        match content {
            Content::Group => writer.put(". "),
            Content::First => writer.put(&format!(" PIC X({first}). ")),
            Content::Second => writer.put(&format!(" PIC X({second}). ")),
            Content::One => writer.put(" PIC 9. "),
        }
    }
    writer.finish()
}

#[derive(Clone, Copy)]
enum Content {
    Group,
    First,
    Second,
    One,
}

fn group(writer: &mut Writer, level: u32) {
    writer.begin(level);
    writer.put(". ");
}

/// 62 to 67 entries.
fn many_rows(random: &mut Random) -> Vec<u8> {
    let count = random.between(62, 67);
    let in_group = random.chance(400);
    let mut writer = Writer::new(random);
    if in_group {
        group(&mut writer, 1);
    }
    for _ in u32::from(in_group)..count {
        let level = if in_group { 5 } else { 77 };
        writer.begin(level);
        let picture = writer.random.pick(&["9", "X", "A(2)", "S9", "9 COMP-3"]);
        writer.put(&format!(" PIC {picture}. "));
    }
    writer.finish()
}

/// A text of about 4,096 bytes: blanks or a count's zeros fill it.
fn long_text(random: &mut Random) -> Vec<u8> {
    let mut text = super::valid(random);
    text.truncate(3_000);
    let goal = 4_096 + random.index(8) - 4;
    let fill = vec![b' '; goal.saturating_sub(text.len())];
    let place = match random.below(5) {
        0 => 0,
        1 => text.len(),
        2 => return zeros(random, text, goal),
        _ => {
            let blanks: Vec<usize> = (0..text.len()).filter(|&i| text[i] == b' ').collect();
            if blanks.is_empty() {
                0
            } else {
                random.pick(&blanks)
            }
        }
    };
    text.splice(place..place, fill);
    text
}

/// Zeros before a count, or at the start where there is none.
fn zeros(random: &mut Random, mut text: Vec<u8>, goal: usize) -> Vec<u8> {
    let counts: Vec<usize> = (0..text.len()).filter(|&i| text[i] == b'(').collect();
    if counts.is_empty() {
        return text;
    }
    let place = random.pick(&counts) + 1;
    let fill = vec![b'0'; goal.saturating_sub(text.len())];
    text.splice(place..place, fill);
    text
}

/// Counts that no machine number holds, or that would wrap to small ones.
fn long_counts(random: &mut Random) -> Vec<u8> {
    let count = match random.below(6) {
        0 => "4294967297".to_string(),
        1 => "18446744073709551617".to_string(),
        2 => "340282366920938463463374607431768211457".to_string(),
        3 => "1".to_string() + &"0".repeat(random.between(1, 400) as usize),
        4 => "9".repeat(random.between(1, 40) as usize),
        _ => "0".repeat(random.between(1, 400) as usize) + "5",
    };
    let symbol = random.pick(&["X", "A", "9", "S9", "9V9", "V9"]);
    let usage = match symbol {
        "X" | "A" => "",
        _ => random.pick(&["", " COMP-3"]),
    };
    let mut writer = Writer::new(random);
    if writer.random.chance(600) {
        group(&mut writer, 1);
        writer.elementary(10);
        writer.begin(10);
    } else {
        writer.begin(77);
    }
    writer.put(&format!(" PIC {symbol}({count}){usage}."));
    if writer.random.chance(500) {
        writer.blank();
        writer.elementary(77);
    }
    writer.finish()
}

/// Nested groups down to level 49 and member levels that come back.
fn levels(random: &mut Random) -> Vec<u8> {
    let mut writer = Writer::new(random);
    let mut open = vec![1];
    group(&mut writer, 1);
    for _ in 0..writer.random.between(1, 12) {
        let top = open[open.len() - 1];
        let level = (top + writer.random.between(1, 9)).min(49);
        if level == 49 || level == top {
            break;
        }
        group(&mut writer, level);
        open.push(level);
    }
    let top = open[open.len() - 1];
    let member = writer.random.between(top + 1, 49);
    writer.elementary(member);
    open.push(member);
    for _ in 0..writer.random.between(0, 6) {
        let place = 1 + writer.random.index(open.len() - 1);
        open.truncate(place + 1);
        let level = open[place];
        let off = writer.random.chance(120);
        writer.elementary(if off { (level + 1).min(49) } else { level });
    }
    writer.finish()
}

/// 63 to 66 condition-names with one value each, mostly, or as many literals in
/// fewer names, behind one item or several.
fn many_conditions(random: &mut Random) -> Vec<u8> {
    let literals = random.chance(400);
    let names = match literals {
        true => random.between(8, 9),
        false => random.between(63, 66),
    };
    let mut writer = Writer::new(random);
    writer.named = 0;
    for number in 0..names {
        if number == 0 || writer.random.chance(20) {
            writer.put("77 A PIC 9. ");
        }
        let values: &[&str] = match (literals, writer.random.below(200)) {
            (false, 0) => &["1", "2"],
            (false, _) => &["1"],
            (true, 0..=9) => &["1 THRU 2"; 4],
            (true, 10..=19) => &["1"; 7],
            (true, _) => &["1"; 8],
        };
        writer.put(&format!("88 B{number} VALUE {}. ", values.join(" ")));
    }
    writer.finish()
}

/// One level 88 entry around its limits, behind an item of any sort.
fn conditions(random: &mut Random) -> Vec<u8> {
    let item = random.pick(&[
        "77 A PIC 9.",
        "77 A PIC 9V9.",
        "77 A PIC S9(4)V99.",
        "77 A PIC S9 COMP-3.",
        "77 A PIC X(3).",
        "77 A PIC A(3).",
        "01 A. 02 B PIC S9.",
        "01 A. 88 C VALUE \"XY\". 02 B PIC X.",
    ]);
    let literal = random.pick(&[
        "1", "1.0", ".5", "+1", "-1.5", "\"1\"", "\"\"", "\"\"\"\"", "\"A B.\"", "0", "-0",
    ]);
    let other = random.pick(&["2", "1", "-2", "\"2\"", "\" \"", "0.5", "1.50", "\"10\""]);
    let values = match random.below(6) {
        0..=1 => literal.to_string(),
        2..=3 => format!("{literal} THRU {other}"),
        4 => vec![literal; random.between(7, 9) as usize].join(" "),
        _ => format!("{literal} {other} THRU {literal}"),
    };
    let behind = random.pick(&[
        "",
        "",
        " ",
        "X",
        "5",
        "5.",
        " 77 D PIC X.",
        " 02 E PIC 9.",
        "\"",
    ]);
    format!("{item} 88 D VALUE {values}.{behind}").into_bytes()
}
