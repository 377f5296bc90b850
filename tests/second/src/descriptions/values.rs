//! What level 88 entries say (02, h): "name, VALUE, literals of e), each alone or
//! with THRU and another".

use super::words::Words;
use crate::literals::is_literal;
use std::ops::Range;

/// One value: a literal alone, or the two ends of a range, as ranges of the text.
#[derive(Clone, Debug)]
pub struct Value {
    pub low: Range<usize>,
    pub high: Option<Range<usize>>,
}

/// The values of an entry, as many as there are up to its period; behind VALUE.
pub fn values(words: &mut Words) -> Option<Vec<Value>> {
    let mut values = Vec::new();
    loop {
        let (low, mut last) = literal(words)?;
        let mut high = None;
        let through = words.clone().next().filter(|word| word.text == b"THRU");
        if let (Some(through), false) = (through, last) {
            words.next();
            let (end, ends) = literal(words).filter(|_| !through.last)?;
            (high, last) = (Some(end), ends);
        }
        values.push(Value { low, high });
        if last {
            return Some(values);
        }
    }
}

/// A literal, and whether its entry ends with it.
fn literal(words: &mut Words) -> Option<(Range<usize>, bool)> {
    let word = words.next()?;
    is_literal(word.text).then(|| (word.range(), word.last))
}
