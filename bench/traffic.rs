// Traffic: what arrives in each slot, by kinds, and the words that say it.

use crate::plain::{BODY, MOST_LINES, NONE, ROOM, SETTINGS, SLOT};
use crate::random::Random;
use std::ops::Range;

/// What arrives in a slot: by input an output, or 255.
pub type Arrivals = [u8; MOST_LINES];

/// Gives what arrives in the next slot.
pub type Source = Box<dyn FnMut(&mut Random) -> Arrivals>;

#[derive(Clone, Copy)]
pub enum Kind {
    Uniform,
    Chorus,
    Deep,
    Adversarial,
    Overload,
    Bursts,
    Silent,
}

impl Kind {
    pub const ALL: [Kind; 7] =
        [Kind::Uniform, Kind::Chorus, Kind::Deep, Kind::Adversarial, Kind::Overload, Kind::Bursts, Kind::Silent];

    /// Traffic of this kind on so many lines; `load` is how likely an input has a cell, where the kind leaves it open.
    pub fn source(self, lines: usize, load: f64) -> Source {
        match self {
            Kind::Uniform => Box::new(move |random| arrivals(lines, |_| somewhere(random, lines, load))),
            Kind::Chorus => chorus(lines, load),
            Kind::Deep => deep(lines),
            Kind::Adversarial => adversarial(lines),
            Kind::Overload => overload(lines),
            Kind::Bursts => bursts(lines, load),
            Kind::Silent => Box::new(|_| [NONE; MOST_LINES]),
        }
    }
}

fn arrivals(lines: usize, mut output: impl FnMut(usize) -> u8) -> Arrivals {
    let mut row = [NONE; MOST_LINES];
    for (input, to) in row[..lines].iter_mut().enumerate() {
        *to = output(input);
    }
    row
}

fn somewhere(random: &mut Random, lines: usize, load: f64) -> u8 {
    if random.chance(load) { random.below(lines) as u8 } else { NONE }
}

/// Now and then most inputs send to one output, or a few, for some slots; otherwise it is quiet.
fn chorus(lines: usize, load: f64) -> Source {
    let (mut singing, mut left, mut hot) = (true, 0, Vec::new());
    Box::new(move |random| {
        if left == 0 {
            singing = !singing;
            left = if singing { random.between(4, 16) } else { random.between(16, 96) };
            hot = (0..random.between(1, 3)).map(|_| random.below(lines) as u8).collect();
        }
        left -= 1;
        arrivals(lines, |_| {
            if singing && random.chance(0.9) { random.one_of(&hot) } else { somewhere(random, lines, load / 2.0) }
        })
    })
}

/// All inputs send to one output until its queue has 256, then to the next.
fn deep(lines: usize) -> Source {
    let mut slots = 0;
    Box::new(move |_| {
        let output = slots / (ROOM / lines) % lines;
        slots += 1;
        arrivals(lines, |_| output as u8)
    })
}

/// Full load, for some hundred slots each: half of the inputs at one output, which moves on, and the others at outputs of
/// their own; or all inputs at a pair of outputs, which moves on; or all at outputs of their own.
fn adversarial(lines: usize) -> Source {
    let mut slots = 0;
    let mut order: Vec<u8> = (0..lines as u8).collect();
    Box::new(move |random| {
        if slots % lines == 0 {
            random.shuffle(&mut order);
        }
        let step = slots;
        slots += 1;
        let own = |input| order[(input + step) % lines];
        match step / 256 % 4 {
            0 => arrivals(lines, |input| if random.chance(0.5) { (step / 8 % lines) as u8 } else { own(input) }),
            1 | 2 => arrivals(lines, |input| ((step / 16 * 2 + (input + step) % 2) % lines) as u8),
            _ => arrivals(lines, own),
        }
    })
}

/// Every input has a cell in every slot, nearly all for a few outputs: queues are full, and cells are rejected.
fn overload(lines: usize) -> Source {
    let few = lines.div_ceil(4);
    Box::new(move |random| {
        arrivals(lines, |_| (if random.chance(0.8) { random.below(few) } else { random.below(lines) }) as u8)
    })
}

/// Each input sends to one output for a while, then to another or to none.
fn bursts(lines: usize, load: f64) -> Source {
    let mut to = [NONE; MOST_LINES];
    Box::new(move |random| {
        for output in &mut to[..lines] {
            if random.chance(1.0 / 12.0) {
                *output = somewhere(random, lines, load);
            }
        }
        to
    })
}

/// Appends the word of a slot, with bodies of random bytes.
pub fn push_slot_word(word: &mut Vec<u8>, arrivals: &[u8], random: &mut Random) {
    word.push(SLOT);
    for &output in arrivals {
        word.push(output);
        if output != NONE {
            for _ in 0..BODY / 8 {
                word.extend_from_slice(&random.next().to_le_bytes());
            }
        }
    }
}

/// Words one behind the other in memory.
#[derive(Default)]
pub struct Words {
    bytes: Vec<u8>,
    ends: Vec<usize>,
}

impl Words {
    /// A settings word.
    pub fn settings(lines: usize) -> Words {
        let mut words = Words::default();
        words.bytes.extend_from_slice(&[SETTINGS, lines as u8]);
        words.end_word();
        words
    }

    fn end_word(&mut self) {
        self.ends.push(self.bytes.len());
    }

    pub fn push_slot(&mut self, arrivals: &[u8], random: &mut Random) {
        push_slot_word(&mut self.bytes, arrivals, random);
        self.end_word();
    }

    pub fn len(&self) -> usize {
        self.ends.len()
    }

    pub fn word(&self, k: usize) -> &[u8] {
        let start = if k == 0 { 0 } else { self.ends[k - 1] };
        &self.bytes[start..self.ends[k]]
    }

    pub fn iter(&self) -> impl Iterator<Item = &[u8]> {
        self.range(0..self.len())
    }

    pub fn range(&self, range: Range<usize>) -> impl Iterator<Item = &[u8]> {
        range.map(|k| self.word(k))
    }
}

/// A settings word, then slots.
pub fn stream(kind: Kind, lines: usize, load: f64, slots: usize, seed: u64) -> Words {
    let mut random = Random::new(seed);
    let mut source = kind.source(lines, load);
    let mut words = Words::settings(lines);
    for _ in 0..slots {
        let row = source(&mut random);
        words.push_slot(&row[..lines], &mut random);
    }
    words
}
