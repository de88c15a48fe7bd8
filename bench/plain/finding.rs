// The finding of a stable choice over the first waiting cell of each pair of an input and an output.

use super::words::MOST_LINES;
use std::num::NonZeroU32;

/// The first waiting cell of each pair.
pub struct Firsts {
    /// A set bit for each output for which any cell waits.
    wanting: u32,
    /// By output, a set bit for each input where a cell for it waits.
    waiting: [u32; MOST_LINES],
    /// By output and input, the cell's slot.
    slots: [[u32; MOST_LINES]; MOST_LINES],
    /// By input and output, how many cells stand ahead of it in its list.
    pub places: [[u16; MOST_LINES]; MOST_LINES],
}

impl Firsts {
    pub fn new() -> Self {
        Firsts {
            wanting: 0,
            waiting: [0; MOST_LINES],
            slots: [[0; MOST_LINES]; MOST_LINES],
            places: [[0; MOST_LINES]; MOST_LINES],
        }
    }

    /// A table over which outputs ask as often as they can at all, n * n - n + 1 times for n = 32. Input 31 is the last
    /// choice of each output; of the others output o likes o best, then o + 1 and so on, round to o - 1 (output 31 is as
    /// output 0), and input i likes output i + 1 best, then i + 2 and so on.
    pub fn hardest() -> Self {
        let mut firsts = Firsts::new();
        let last = MOST_LINES - 1;
        for (output, input) in (0..MOST_LINES).flat_map(|output| (0..MOST_LINES).map(move |input| (output, input))) {
            let rank = if input == last { last } else { (input + 2 * last - output) % last };
            let place = (output + 2 * MOST_LINES - input - 1) % MOST_LINES;
            firsts.set(input, output, rank as u32, place);
        }
        firsts
    }

    pub fn clear(&mut self) {
        self.wanting = 0;
        self.waiting = [0; MOST_LINES];
    }

    #[inline]
    pub fn has(&self, input: usize, output: usize) -> bool {
        self.waiting[output] >> input & 1 == 1
    }

    #[inline]
    pub fn set(&mut self, input: usize, output: usize, slot: u32, place: usize) {
        self.wanting |= 1 << output;
        self.waiting[output] |= 1 << input;
        self.slots[output][input] = slot;
        self.places[input][output] = place as u16;
    }

    #[inline]
    pub fn unset(&mut self, input: usize, output: usize) {
        self.waiting[output] &= !(1 << input);
        if self.waiting[output] == 0 {
            self.wanting &= !(1 << output);
        }
    }
}

/// The lines whose bits are set, lowest first.
pub struct Lines(pub u32);

impl Iterator for Lines {
    type Item = usize;

    #[inline]
    fn next(&mut self) -> Option<usize> {
        let bits = NonZeroU32::new(self.0)?;
        self.0 &= self.0 - 1;
        Some(bits.trailing_zeros() as usize)
    }
}

/// What is found.
pub struct Found {
    /// A set bit for each input that sends a cell.
    pub senders: u32,
    /// By input, how many stand ahead of what it sends; more than there can be where it sends nothing.
    pub places: [u16; MOST_LINES],
    pub asks: u32,
}

/// The one of these inputs, of which there is at least one, with the earliest cell.
#[inline]
fn earliest(slots: &[u32; MOST_LINES], inputs: u32) -> usize {
    let keys = Lines(inputs).map(|input| u64::from(slots[input]) * MOST_LINES as u64 + input as u64);
    keys.min().unwrap_or(0) as usize % MOST_LINES
}

/// An output that is not there, and asks nobody.
const NOBODY: usize = MOST_LINES;

/// Outputs ask, the lowest that is not content first, each for its earliest cell at the inputs that have not refused
/// it; an input keeps what stands first in its list.
pub fn find(firsts: &Firsts) -> Found {
    let mut found = Found { senders: 0, places: [u16::MAX; MOST_LINES], asks: 0 };
    let mut kept = [NOBODY as u8; MOST_LINES];
    let mut askable = [0; MOST_LINES + 1];
    askable[..MOST_LINES].copy_from_slice(&firsts.waiting);
    let mut asking = u64::from(firsts.wanting);
    while asking != 0 {
        let output = asking.trailing_zeros() as usize % MOST_LINES;
        let input = earliest(&firsts.slots[output], askable[output]);
        found.asks += 1;
        found.senders |= 1 << input;
        askable[output] &= !(1 << input);
        asking &= !(1 << output);
        let place = firsts.places[input][output];
        let before = usize::from(kept[input]);
        let preferred = place < found.places[input];
        let refused = if preferred { before } else { output };
        kept[input] = (if preferred { output } else { before }) as u8;
        found.places[input] = found.places[input].min(place);
        asking |= u64::from(askable[refused] != 0) << refused;
    }
    found
}
