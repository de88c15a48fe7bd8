// The bytes of words: readers, and the writer of answers.

use crate::switch::Answer;

pub const MOST_LINES: usize = 32;
pub const BODY: usize = 64;
/// How many cells a box holds for an output.
pub const ROOM: usize = 256;

pub const SETTINGS: u8 = 1;
pub const SLOT: u8 = 2;
const SLOT_ANSWER: u8 = 3;
const REFUSAL: u8 = 5;
/// In a slot and in its answer: no cell.
pub const NONE: u8 = 255;

/// The slot's answer has for each cell its input, its slot and its body.
const DEPARTURE: usize = 1 + 4 + BODY;

pub type Body = [u8; BODY];

#[derive(Clone, Copy)]
pub enum Fault {
    Malformed = 1,
    LineCount = 2,
    NoSuchOutput = 3,
    SlotLimit = 4,
}

/// What arrives by an input: nothing, or a cell's output and its body.
pub type Arrival<'a> = Option<(u8, &'a Body)>;

/// Reads the rest of a settings word: how many lines there are to be.
pub fn read_settings(rest: &[u8]) -> Result<usize, Fault> {
    match rest {
        &[lines @ 1..=32] => Ok(usize::from(lines)),
        &[_] => Err(Fault::LineCount),
        _ => Err(Fault::Malformed),
    }
}

/// Reads the rest of a slot word to its end: what arrives by each input, where there was nothing before.
pub fn read_arrivals<'a>(mut rest: &'a [u8], arrivals: &mut [Arrival<'a>]) -> Result<(), Fault> {
    let lines = arrivals.len();
    let mut all_fit = true;
    for arrival in arrivals {
        let (&output, behind) = rest.split_first().ok_or(Fault::Malformed)?;
        rest = behind;
        if output == NONE {
            continue;
        }
        let (body, behind) = rest.split_first_chunk().ok_or(Fault::Malformed)?;
        rest = behind;
        all_fit &= usize::from(output) < lines;
        *arrival = Some((output, body));
    }
    if !rest.is_empty() {
        return Err(Fault::Malformed);
    }
    if !all_fit {
        return Err(Fault::NoSuchOutput);
    }
    Ok(())
}

pub fn write_refusal(fault: Fault, out: &mut Answer) -> usize {
    out[..2].copy_from_slice(&[REFUSAL, fault as u8]);
    2
}

/// Writes a slot's answer from its front.
pub struct Writer<'a> {
    out: &'a mut Answer,
    at: usize,
}

impl<'a> Writer<'a> {
    pub fn new(out: &'a mut Answer) -> Self {
        out[0] = SLOT_ANSWER;
        Writer { out, at: 1 }
    }

    #[inline]
    pub fn no_departure(&mut self) {
        self.out[self.at] = NONE;
        self.at += 1;
    }

    #[inline]
    pub fn departure(&mut self, input: u8, slot: u32, body: &Body) {
        let part: &mut [u8; DEPARTURE] = self.out[self.at..].first_chunk_mut().expect("room for 32 departures");
        part[0] = input;
        part[1..5].copy_from_slice(&slot.to_be_bytes());
        part[5..].copy_from_slice(body);
        self.at += DEPARTURE;
    }

    /// Ends the answer with a byte for each input, 1 where its bit is set; gives the answer's length.
    pub fn rejects(self, lines: usize, rejected: u32) -> usize {
        let end = self.at + lines;
        for (input, byte) in self.out[self.at..end].iter_mut().enumerate() {
            *byte = u8::from(rejected >> input & 1 == 1);
        }
        end
    }
}
