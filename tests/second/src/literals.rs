//! Literals as printed (02, e), in condition texts and in level 88 entries: "each
//! literal met adds a row".

/// Whether a word is a numeric or nonnumeric literal, its limits aside.
pub fn is_literal(word: &[u8]) -> bool {
    is_quoted(word) || is_numeric(word)
}

/// "Nonnumeric ones stand in \", any bytes, a \" inside doubled": parted at its
/// quotes, every second part is what stands between two that double each other.
fn is_quoted(word: &[u8]) -> bool {
    let [b'"', inside @ .., b'"'] = word else {
        return false;
    };
    let parts: Vec<&[u8]> = inside.split(|&byte| byte == b'"').collect();
    let mut between = parts.iter().skip(1).step_by(2);
    parts.len() % 2 == 1 && between.all(|part| part.is_empty())
}

/// "Numeric literals may be signed and hold one point, not last".
fn is_numeric(word: &[u8]) -> bool {
    let unsigned = match word {
        [b'+' | b'-', rest @ ..] => rest,
        _ => word,
    };
    let points = unsigned.iter().filter(|&&byte| byte == b'.').count();
    let digits = unsigned.iter().filter(|byte| byte.is_ascii_digit()).count();
    points <= 1
        && points + digits == unsigned.len()
        && unsigned.last().is_some_and(u8::is_ascii_digit)
}

/// Literal rows and bytes, "laid in turn".
#[derive(Clone, Debug, Default, PartialEq, Eq)]
pub struct Literals {
    pub rows: Vec<u32>,
    pub bytes: Vec<u8>,
}

const ROWS: usize = 64;

impl Literals {
    /// The token of a literal; None for one "outside 01's limits, a 65th".
    pub fn add(&mut self, word: &[u8]) -> Option<u32> {
        let (kind, content, scale) = content(word);
        let number = self.rows.len() / 5;
        let size = content.len();
        let digits = match kind {
            2 => 0,
            3 => size,
            _ => size - 1,
        };
        let within = match kind {
            2 => (1..=256).contains(&size),
            _ => (1..=18).contains(&digits),
        };
        if !within || number == ROWS {
            return None;
        }
        let row = [kind, self.bytes.len(), size, scale, digits];
        self.rows.extend(row.map(|number| number as u32));
        self.bytes.extend(content);
        Some(65_536 + number as u32)
    }
}

/// Kind, bytes and scale. A quoted one is of kind 2, its doubled quotes single; a
/// number of kind 3, with a sign 5, its bytes without the point.
fn content(word: &[u8]) -> (usize, Vec<u8>, usize) {
    match word {
        [b'"', inside @ .., b'"'] => {
            let text = inside.split(|&byte| byte == b'"');
            // Parts between doubled quotes are empty: one quote for two.
            let parts: Vec<&[u8]> = text.step_by(2).collect();
            (2, parts.join(&b'"'), 0)
        }
        _ => {
            let point = word.iter().rev().position(|&byte| byte == b'.');
            let bytes = word.iter().copied().filter(|&byte| byte != b'.').collect();
            let kind = if word[0].is_ascii_digit() || word[0] == b'.' {
                3
            } else {
                5
            };
            (kind, bytes, point.unwrap_or(0))
        }
    }
}
