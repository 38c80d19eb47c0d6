//! How bytes and answers are printed where something differs.

use crate::reference::answer::Answer;
use crate::reference::programs;

/// The bytes as 01 writes them, and how many they are.
pub fn hex(bytes: &[u8]) -> String {
    format!("[{}] ({} bytes)", programs::hex(bytes), bytes.len())
}

/// The same where there may be too many bytes to show: then only those near a
/// place.
pub fn hex_near(bytes: &[u8], place: usize) -> String {
    const MOST: usize = 2_000;
    const NEAR: usize = 40;
    if bytes.len() <= MOST {
        return hex(bytes);
    }
    let start = place.saturating_sub(NEAR).min(bytes.len());
    let end = (place + NEAR).min(bytes.len());
    format!("{} bytes, from {start} to {end}: {}", bytes.len(), hex(&bytes[start..end]))
}

pub fn answer(answer: Answer) -> String {
    let Answer { code, kind, record, place, pattern } = answer;
    format!("code {code} kind {kind} record {record} place {place} pattern {pattern}")
}
