//! The library's reader and printer of condition texts, called through their C
//! interface, against these:
//!
//! ```c
//! uint32_t oboecurlew_read(const uint8_t *description, size_t description_size, const uint8_t *text, size_t text_size,
//!                          uint32_t *tokens, size_t token_numbers, uint32_t *literals, size_t literal_numbers,
//!                          uint8_t *bytes, size_t byte_count, oboecurlew_answer *answer);
//! uint32_t oboecurlew_print(const uint8_t *description, size_t description_size, const uint32_t *literals,
//!                           size_t literal_numbers, const uint8_t *bytes, size_t byte_count, const uint32_t *tokens,
//!                           size_t token_count, uint8_t *text, size_t text_size, oboecurlew_answer *answer);
//! ```

use super::case::Case;
use super::LONGEST;
use crate::answers::{fresh_bytes, fresh_output};
use crate::comparison::{self, GUARDS};
use crate::outside::{of_written, Answer, Said};

extern "C" {
    fn oboecurlew_read(
        description: *const u8,
        n_description: usize,
        text: *const u8,
        n_text: usize,
        tokens: *mut u32,
        n_tokens: usize,
        literals: *mut u32,
        n_literals: usize,
        bytes: *mut u8,
        n_bytes: usize,
        answer: *mut Answer,
    ) -> u32;
    fn oboecurlew_print(
        description: *const u8,
        n_description: usize,
        literals: *const u32,
        n_literals: usize,
        bytes: *const u8,
        n_bytes: usize,
        tokens: *const u32,
        n_tokens: usize,
        text: *mut u8,
        n_text: usize,
        answer: *mut Answer,
    ) -> u32;
}

fn read(
    description: &[u8],
    text: &[u8],
    tokens: &mut [u32],
    literals: &mut [u32],
    bytes: &mut [u8],
) -> Said {
    let mut answer = Answer::UNWRITTEN;
    // Slices give pointers that are never null and that match their lengths.
    let number = unsafe {
        oboecurlew_read(
            description.as_ptr(),
            description.len(),
            text.as_ptr(),
            text.len(),
            tokens.as_mut_ptr(),
            tokens.len(),
            literals.as_mut_ptr(),
            literals.len(),
            bytes.as_mut_ptr(),
            bytes.len(),
            &mut answer,
        )
    };
    (number, answer)
}

fn print(
    description: &[u8],
    literals: &[u32],
    bytes: &[u8],
    tokens: &[u32],
    text: &mut [u8],
) -> Said {
    let mut answer = Answer::UNWRITTEN;
    // As above.
    let number = unsafe {
        oboecurlew_print(
            description.as_ptr(),
            description.len(),
            literals.as_ptr(),
            literals.len(),
            bytes.as_ptr(),
            bytes.len(),
            tokens.as_ptr(),
            tokens.len(),
            text.as_mut_ptr(),
            text.len(),
            &mut answer,
        )
    };
    (number, answer)
}

/// Compares so many cases and gives the number of those that differ.
pub fn compare(seed: u64, count: u64) -> u64 {
    comparison::compare("text", seed, count, differences)
}

/// Everything in which the library and these calls differ on a case.
fn differences(case: &Case) -> Vec<String> {
    let lent = case.clone();
    let mut found = Vec::new();
    compare_read(&lent, &mut found);
    compare_print(&lent, &mut found);
    if let Err(broken) = comes_back(&lent) {
        found.push(format!("read, printed and read again: {broken}"));
    }
    if !case.answer().comes_back {
        found.push("what was read does not come back by these rules".to_string());
    }
    if lent != *case {
        found.push("the library changed what it was lent".to_string());
    }
    found
}

fn compare_read(lent: &Case, found: &mut Vec<String>) {
    let expected = lent.answer();
    let [token_room, literal_room, byte_room] = lent.rooms;
    let mut tokens = fresh_output(token_room + GUARDS);
    let mut literals = fresh_output(literal_room + GUARDS);
    let mut bytes = fresh_bytes(byte_room + GUARDS);
    let said = read(
        &lent.description,
        &lent.text,
        &mut tokens[..token_room],
        &mut literals[..literal_room],
        &mut bytes[..byte_room],
    );
    comparison::answers("read", said, of_written(expected.read), found);
    comparison::numbers("tokens", &tokens, &expected.tokens, found);
    comparison::numbers("literal rows", &literals, &expected.literals, found);
    comparison::bytes("literal bytes", &bytes, &expected.bytes, found);
}

fn compare_print(lent: &Case, found: &mut Vec<String>) {
    let expected = lent.answer();
    let room = lent.print_room;
    let mut text = fresh_bytes(room + GUARDS);
    let said = print(
        &lent.description,
        &lent.literals,
        &lent.bytes,
        &lent.tokens,
        &mut text[..room],
    );
    comparison::answers("print", said, of_written(expected.print), found);
    comparison::bytes("printed text", &text, &expected.printed, found);
}

/// With the library's own calls and room for all.
fn comes_back(lent: &Case) -> Result<(), String> {
    let (mut tokens, mut literals, mut bytes) = ([0; 256], [0; 320], [0; 2 * LONGEST]);
    let (refused, first) = read(
        &lent.description,
        &lent.text,
        &mut tokens,
        &mut literals,
        &mut bytes,
    );
    if refused != 0 {
        return Ok(());
    }
    let [n_tokens, n_literals, n_bytes, ..] = first.written.map(|count| count as usize);
    let mut text = vec![0; 65_536];
    let (refused, printed) = print(
        &lent.description,
        &literals[..n_literals],
        &bytes[..n_bytes],
        &tokens[..n_tokens],
        &mut text,
    );
    if refused != 0 {
        return Err(format!("print refuses with {refused}, {printed:?}"));
    }
    let length = printed.written[0] as usize;
    if length > LONGEST {
        return Ok(());
    }
    let (mut again, mut rows, mut laid) = ([0; 256], [0; 320], [0; 2 * LONGEST]);
    let said = read(
        &lent.description,
        &text[..length],
        &mut again,
        &mut rows,
        &mut laid,
    );
    if said != (0, first) || again != tokens || rows != literals || laid != bytes {
        return Err(format!(
            "{said:?} for \"{}\"",
            text[..length].escape_ascii()
        ));
    }
    Ok(())
}
