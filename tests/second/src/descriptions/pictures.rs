//! "PIC of X only, A only, or S if signed, 9s and at most one V, with repeat
//! counts above 0 after X, A or 9".

use crate::big::Big;

#[derive(Clone, Copy, Debug, PartialEq, Eq)]
pub enum Sort {
    X,
    A,
    Nines { signed: bool },
}

/// What sort of picture a word is; None where it is no picture.
pub fn sort(word: &[u8]) -> Option<Sort> {
    match word {
        [b'X', ..] => is_repeated(b'X', word).then_some(Sort::X),
        [b'A', ..] => is_repeated(b'A', word).then_some(Sort::A),
        [b'S', nines @ ..] => are_nines(nines).then_some(Sort::Nines { signed: true }),
        nines => are_nines(nines).then_some(Sort::Nines { signed: false }),
    }
}

/// The symbol one or more times, each with or without a count.
fn is_repeated(symbol: u8, word: &[u8]) -> bool {
    !word.is_empty() && is_repeated_or_empty(symbol, word)
}

fn is_repeated_or_empty(symbol: u8, mut word: &[u8]) -> bool {
    while let [first, rest @ ..] = word {
        if *first != symbol {
            return false;
        }
        match behind_count(rest) {
            Some(behind) => word = behind,
            None => return false,
        }
    }
    true
}

/// What follows a count, or all if there is none; None for a faulty count.
fn behind_count(word: &[u8]) -> Option<&[u8]> {
    let [b'(', inside @ ..] = word else {
        return Some(word);
    };
    let end = inside.iter().position(|&byte| byte == b')')?;
    let digits = &inside[..end];
    let above_zero = digits.iter().any(|&digit| digit != b'0');
    let counts = digits.iter().all(u8::is_ascii_digit) && above_zero;
    counts.then_some(&inside[end + 1..])
}

/// 9s around at most one V, at least one 9.
fn are_nines(word: &[u8]) -> bool {
    let mut sides = word.splitn(2, |&byte| byte == b'V');
    let before = sides.next().unwrap_or(b"");
    let behind = sides.next().unwrap_or(b"");
    before.len() + behind.len() > 0
        && is_repeated_or_empty(b'9', before)
        && is_repeated_or_empty(b'9', behind)
}

/// How many characters or digits a picture has, and how many behind its V.
pub fn measures(word: &[u8]) -> (Big, Big) {
    let sides: Vec<&[u8]> = word.splitn(2, |&byte| byte == b'V').collect();
    let behind = sides.get(1).map_or(Big::default(), |side| symbols(side));
    (symbols(sides[0]).plus(&behind), behind)
}

/// The sum of the counts, 1 where none is written; S counts nothing.
fn symbols(side: &[u8]) -> Big {
    let mut sum = Big::default();
    for (place, symbol) in side.iter().enumerate() {
        if matches!(symbol, b'X' | b'A' | b'9') && !in_count(side, place) {
            sum = sum.plus(&count_behind(&side[place + 1..]));
        }
    }
    sum
}

/// Whether a 9 is a digit of a count.
fn in_count(side: &[u8], place: usize) -> bool {
    let bracket = side[..place]
        .iter()
        .rfind(|byte| matches!(byte, b'(' | b')'));
    bracket == Some(&b'(')
}

fn count_behind(rest: &[u8]) -> Big {
    match rest {
        [b'(', inside @ ..] => {
            let end = inside.iter().position(|&byte| byte == b')');
            Big::of_decimal(&inside[..end.unwrap_or(0)])
        }
        _ => Big::from(1),
    }
}

#[cfg(test)]
mod tests {
    use super::*;

    #[test]
    fn sorts() {
        let check = |word: &str, wanted| assert_eq!(sort(word.as_bytes()), wanted, "{word}");
        let signed = Some(Sort::Nines { signed: true });
        let unsigned = Some(Sort::Nines { signed: false });
        for word in ["X", "XX", "X(3)X", "X(003)", "X(1)X(2)"] {
            check(word, Some(Sort::X));
            check(&word.replace('X', "A"), Some(Sort::A));
        }
        for word in [
            "9",
            "99",
            "V9",
            "9V",
            "9V9",
            "9(3)V9(2)",
            "9(9)99",
            "V9(10)9",
        ] {
            check(word, unsigned);
            check(&format!("S{word}"), signed);
        }
        for word in [
            "", "XA", "AX", "X9", "9X", "V", "SV", "S", "SX", "SA", "VV9", "9VV", "V9V", "9S",
            "X(0)", "X(000)", "X()", "X(1", "X1)", "X(1)(1)", "(1)X", "SS9", "S(2)9", "V(2)9",
            "9V(2)", "X(-1)", "X(A)", "x", "9.9", "9(1)V(1)", "X((1))",
        ] {
            check(word, None);
        }
    }

    #[test]
    fn sizes_and_scales() {
        let check = |word: &str, size: u32, scale: u32| {
            let wanted = (Big::from(size), Big::from(scale));
            assert_eq!(measures(word.as_bytes()), wanted, "{word}");
        };
        check("X", 1, 0);
        check("XXX(004)", 6, 0);
        check("A(256)A", 257, 0);
        check("S9(5)V9(3)", 8, 3);
        check("V99", 2, 2);
        check("9(99)9V", 100, 0);
        check("SV9(9)9", 10, 10);
        check("9V9(199)99", 202, 201);
    }

    #[test]
    fn counts_of_any_length() {
        let digits = "9".repeat(3_000);
        let (size, _) = measures(format!("X({digits})X").as_bytes());
        assert_eq!(
            size,
            Big::of_decimal(format!("1{}", "0".repeat(3_000)).as_bytes())
        );
    }
}
