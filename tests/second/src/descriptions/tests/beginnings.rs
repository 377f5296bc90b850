//! Whether the endings that are tried suffice, and what random texts hold.

use crate::descriptions::completions::{longest_shared_beginning, Trier};
use crate::descriptions::entries::{complete, is_valid, Form};
use crate::descriptions::{generate, read};
use crate::random::Random;
use crate::rules::Refusal;
use std::collections::HashMap;

/// Every beginning of a valid text is shared by one.
#[test]
fn beginnings_of_valid_texts() {
    let mut beginnings = 0;
    let mut trier = Trier::new();
    for index in 0..3_000 {
        let text = generate::valid(&mut Random::new(31, index));
        assert!(is_valid(&text), "{}", text.escape_ascii());
        if text.len() > 400 {
            continue;
        }
        for length in 0..text.len() {
            let beginning = &text[..length];
            assert!(trier.is_shared(beginning), "{}", beginning.escape_ascii());
            beginnings += 1;
        }
    }
    assert!(beginnings > 100_000, "{beginnings}");
}

/// What is shared two bytes further on is shared one byte further on: where the
/// endings did not suffice for a beginning, a longer one would show it.
#[test]
fn no_beginning_is_missed() {
    let likely = b" \n.()-+\"0123456789ABCDEFGHIJKLMNOPQRSTUVWXYZ";
    let mut random = Random::new(37, 0);
    let mut refused = 0;
    let mut trier = Trier::new();
    for index in 0..25 {
        let text = generate::case(37, index).text;
        let mut beginning = text[..random.index(text.len().min(60) + 1)].to_vec();
        while !trier.is_shared(&beginning) {
            beginning.pop();
        }
        let length = beginning.len();
        for first in 0..=255 {
            beginning.push(first);
            if !trier.is_shared(&beginning) {
                refused += 1;
                for &second in likely {
                    beginning.push(second);
                    assert!(!trier.is_shared(&beginning), "{}", beginning.escape_ascii());
                    beginning.pop();
                }
            }
            beginning.truncate(length);
        }
    }
    assert!(refused > 3_000, "{refused}");
}

/// The place of the fault against one byte after the other.
#[test]
fn halving_finds_the_first_fault() {
    let mut trier = Trier::new();
    for index in 0..3_000 {
        let text = generate::case(41, index).text;
        if text.len() > 150 || is_valid(&text) {
            continue;
        }
        let shared = (1..=text.len()).take_while(|&length| trier.is_shared(&text[..length]));
        let place = longest_shared_beginning(&text);
        assert_eq!(place, shared.count(), "{}", text.escape_ascii());
    }
}

/// Random cases hold every sort of answer: success with and without names, each
/// output too short, faults inside and at the end, limits of items and of names,
/// the 65th of every table, byte 4,096.
#[test]
fn sorts_of_answers() {
    let mut seen: HashMap<&str, u32> = HashMap::new();
    let mut trier = Trier::new();
    for index in 0..20_000 {
        let case = generate::case(43, index);
        let answer = case.answer();
        let place = answer
            .result
            .map_or_else(|refusal| refusal.place as usize, |_| 0);
        let sort = match answer.result {
            Ok([_, 64, ..]) => "64 rows",
            Ok([_, _, _, 64, ..]) => "64 names",
            Ok([_, _, _, _, 320, _]) => "64 literals",
            Ok([_, _, 0, ..]) => "read",
            Ok(_) => "read with names",
            Err(Refusal { number: 10, .. }) => {
                const SHORT: [&str; 6] = [
                    "rows short",
                    "places short",
                    "names short",
                    "name places short",
                    "literals short",
                    "bytes short",
                ];
                let needed = read(&case.text).unwrap().counts();
                let short = (0..6).find(|&output| case.rooms[output] < needed[output] as usize);
                SHORT[short.unwrap()]
            }
            Err(_) if place == 4_096 => "byte 4,096",
            Err(_) if place == case.text.len() => "fault at the end",
            Err(_) if !trier.is_shared(&case.text[..place + 1]) => "fault inside",
            Err(_) => limit(&case.text, place),
        };
        *seen.entry(sort).or_default() += 1;
    }
    for (sort, least) in [
        ("read", 3_000),
        ("read with names", 2_000),
        ("64 rows", 30),
        ("64 names", 15),
        ("64 literals", 30),
        ("rows short", 400),
        ("places short", 300),
        ("names short", 100),
        ("name places short", 70),
        ("literals short", 70),
        ("bytes short", 70),
        ("byte 4,096", 100),
        ("fault at the end", 700),
        ("fault inside", 3_000),
        ("limit of an item", 500),
        ("limit of a name", 500),
        ("65th row", 70),
        ("65th name", 30),
        ("65th literal", 30),
    ] {
        let found = seen.get(sort).copied().unwrap_or(0);
        assert!(found >= least, "{sort}: {found}, {seen:?}");
    }
    assert_eq!(seen.values().sum::<u32>(), 20_000);
}

/// Which limit an entry at a place passes, by what stands before it.
fn limit(text: &[u8], place: usize) -> &'static str {
    let before = complete(&text[..place]);
    let items = before.iter().filter(|entry| entry.is_item()).count();
    let names = before.len() - items;
    let values = before.iter().map(|entry| match &entry.form {
        Form::Condition { values } => values.len(),
        _ => 0,
    });
    match text[place] {
        b'8' if names == 64 => "65th name",
        b'8' if values.sum::<usize>() > 55 => "65th literal",
        b'8' => "limit of a name",
        _ if items == 64 => "65th row",
        _ => "limit of an item",
    }
}
