//! Entries, and what makes a text of entries valid.

use super::pictures::{self, Sort};
use super::values::{values, Value};
use super::words::{is_name, level, words, Word, Words};
use std::ops::Range;

/// An entry, its parts as ranges of the text.
#[derive(Clone, Debug)]
pub struct Entry {
    pub start: usize,
    pub level: u32,
    pub name: Range<usize>,
    pub form: Form,
}

#[derive(Clone, Debug)]
pub enum Form {
    /// "No PIC makes a group".
    Group,
    Elementary {
        kind: u32,
        picture: Range<usize>,
    },
    /// A level 88 entry, which is no item's (02, h).
    Condition {
        values: Vec<Value>,
    },
}

impl Entry {
    fn is_group(&self) -> bool {
        matches!(self.form, Form::Group)
    }

    pub fn is_item(&self) -> bool {
        !matches!(self.form, Form::Condition { .. })
    }
}

/// Whether a whole text is as 02 says, its length and row limits aside: "one or
/// more" entries, nothing behind the last period. "After an item's entry, a) takes
/// level 88 entries" (02, h): they may stand anywhere but first.
pub fn is_valid(text: &[u8]) -> bool {
    let mut words = words(text);
    let mut entries = Vec::new();
    while words.clone().next().is_some() {
        match entry(&mut words) {
            Some(entry) => entries.push(entry),
            None => return false,
        }
    }
    let begins = entries.first().is_some_and(Entry::is_item);
    entries.retain(Entry::is_item);
    begins && are_records(&entries)
}

/// The complete entries of a beginning that some valid text shares.
pub fn complete(beginning: &[u8]) -> Vec<Entry> {
    let mut words = words(beginning);
    std::iter::from_fn(|| entry(&mut words)).collect()
}

/// One entry: level, name, PIC and picture, SIGN clause, or VALUE and literals, as
/// many as there are up to "a period, no blank before it".
fn entry(words: &mut Words) -> Option<Entry> {
    let level_word = words.next().filter(|word| !word.last)?;
    let level = level(level_word.text)?;
    let name = words.next()?;
    if !is_name(name.text) && (name.text != b"FILLER" || level == 88) {
        return None;
    }
    let form = match (level, name.last) {
        (88, true) => return None,
        (88, false) => condition(words)?,
        (_, true) => Form::Group,
        (_, false) => elementary(words)?,
    };
    Some(Entry {
        start: level_word.start,
        level,
        name: name.range(),
        form,
    })
}

fn condition(words: &mut Words) -> Option<Form> {
    expect(words, "VALUE")?;
    let values = values(words)?;
    Some(Form::Condition { values })
}

fn elementary(words: &mut Words) -> Option<Form> {
    expect(words, "PIC")?;
    let picture = words.next()?;
    let sort = pictures::sort(picture.text)?;
    let kind = match sort {
        Sort::A => 1,
        Sort::X => 2,
        Sort::Nines { signed: false } => 3,
        Sort::Nines { signed: true } => 4,
    };
    let kind = match (picture.last, sort) {
        (true, _) => kind,
        (false, Sort::Nines { signed }) => usage(words, signed)?,
        (false, _) => return None,
    };
    let picture = picture.range();
    Some(Form::Elementary { kind, picture })
}

/// "The reader of a) takes COMP-3 [...] in SIGN's place, with or without S"
/// (02, f): kind 8 or 9.
fn usage(words: &mut Words, signed: bool) -> Option<u32> {
    let word = words.next()?;
    match (word.text, word.last, signed) {
        (b"COMP-3", true, true) => Some(8),
        (b"COMP-3", true, false) => Some(9),
        (b"SIGN", false, true) => separate_sign(words),
        _ => None,
    }
}

/// "SIGN LEADING or TRAILING SEPARATE for kinds 5, 6".
fn separate_sign(words: &mut Words) -> Option<u32> {
    let side = words.next().filter(|word| !word.last)?;
    let last = words.next().filter(|word: &Word| word.last)?;
    match (side.text, last.text) {
        (b"LEADING", b"SEPARATE") => Some(5),
        (b"TRAILING", b"SEPARATE") => Some(6),
        _ => None,
    }
}

/// A keyword that does not end its entry.
fn expect(words: &mut Words, keyword: &str) -> Option<()> {
    let word = words.next()?;
    (word.text == keyword.as_bytes() && !word.last).then_some(())
}

/// "01 or 77 (which has a PIC) outside groups".
fn are_records(mut entries: &[Entry]) -> bool {
    while let [first, ..] = entries {
        let stands_outside = match first.level {
            1 => true,
            77 => !first.is_group(),
            _ => false,
        };
        match item(entries) {
            Some(rest) if stands_outside => entries = rest,
            _ => return false,
        }
    }
    true
}

/// An elementary entry, or a group's with its members: "its one or more members
/// share one greater level number", "02 to 49". Gives what follows.
fn item(entries: &[Entry]) -> Option<&[Entry]> {
    let (first, mut rest) = entries.split_first()?;
    if !first.is_group() {
        return Some(rest);
    }
    let shared = rest.first()?.level;
    if shared <= first.level || shared > 49 {
        return None;
    }
    while rest.first().is_some_and(|member| member.level == shared) {
        rest = item(rest)?;
    }
    Some(rest)
}
