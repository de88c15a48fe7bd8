// Streams of frames: each word, or answer, behind its length in 2 bytes.

use crate::switch::{LONGEST_ANSWER, Switch};

pub fn push_frame(stream: &mut Vec<u8>, word: &[u8]) {
    stream.extend_from_slice(&(word.len() as u16).to_be_bytes());
    stream.extend_from_slice(word);
}

/// The words of a stream; a frame that the end cuts counts as the empty word.
pub fn words(mut stream: &[u8]) -> impl Iterator<Item = &[u8]> {
    std::iter::from_fn(move || {
        if stream.is_empty() {
            return None;
        }
        let whole = stream.split_first_chunk().and_then(|(len, rest)| {
            rest.split_at_checked(usize::from(u16::from_be_bytes(*len)))
        });
        let (word, rest) = whole.unwrap_or_default();
        stream = rest;
        Some(word)
    })
}

/// All answers of a box to a stream, as a stream.
pub fn answers(switch: &mut dyn Switch, stream: &[u8]) -> Vec<u8> {
    let mut out = [0; LONGEST_ANSWER];
    let mut all = Vec::new();
    for word in words(stream) {
        let len = switch.answer(word, &mut out);
        if len > 0 {
            push_frame(&mut all, &out[..len]);
        }
    }
    all
}
