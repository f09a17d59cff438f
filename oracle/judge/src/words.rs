//! Batches of list cases: cases as words, and one answer line a case.
//!
//! A case is two little-endian u32 words, its kind and the length of its body
//! in words, and then the body. A batch is cases one after another.

use crate::{lists, paths};

/// A body of more words than this is not answered.
pub const LONGEST_BODY: usize = 4096;

/// One case of a batch.
#[derive(Clone, Debug, PartialEq, Eq)]
pub struct Case {
    pub kind: u32,
    pub body: Vec<u32>,
}

impl Case {
    pub fn new(kind: u32, body: Vec<u32>) -> Self {
        Self { kind, body }
    }
}

/// The answer lines of a batch.
pub fn answer_batch(batch: &[u8]) -> Vec<String> {
    let mut lines = Vec::new();
    let mut rest = batch;
    while !rest.is_empty() {
        let Some((case, after)) = read_case(rest) else {
            lines.push("cut".to_string());
            break;
        };
        lines.push(answer(&case));
        rest = after;
    }
    lines
}

/// The answer line of one case.
pub fn answer(case: &Case) -> String {
    let body = &case.body;
    let line = match case.kind {
        1..=7 if body.len() > LONGEST_BODY => return "long".to_string(),
        1 => lists::set(body),
        2 => lists::subset(body),
        3 => lists::contains(body),
        4 => lists::ascending(body),
        5 => lists::compare(body),
        6 => lists::property(body),
        7 => paths::step_line(body),
        _ => return "unknown".to_string(),
    };
    line.unwrap_or_else(|| "short".to_string())
}

/// The first case and what comes after it, or nothing if the bytes end
/// inside it.
fn read_case(bytes: &[u8]) -> Option<(Case, &[u8])> {
    let (kind, rest) = read_word(bytes)?;
    let (length, rest) = read_word(rest)?;
    let body_bytes = usize::try_from(length).ok()?.checked_mul(4)?;
    if rest.len() < body_bytes {
        return None;
    }
    let (body, after) = rest.split_at(body_bytes);
    let words = body.chunks_exact(4);
    let body = words.map(|word| u32::from_le_bytes([word[0], word[1], word[2], word[3]]));
    Some((Case::new(kind, body.collect()), after))
}

fn read_word(bytes: &[u8]) -> Option<(u32, &[u8])> {
    let (word, rest) = bytes.split_first_chunk()?;
    Some((u32::from_le_bytes(*word), rest))
}

/// A list split after its first `count` words, or nothing if it is shorter.
pub fn split(words: &[u32], count: u32) -> Option<(&[u32], &[u32])> {
    words.split_at_checked(usize::try_from(count).ok()?)
}
