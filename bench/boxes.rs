// The boxes that are measured and compared.

use crate::plain;
#[cfg(proved)]
use crate::proved;
use crate::switch::{Answer, LONGEST_ANSWER, Switch};

#[derive(Clone, Copy, PartialEq, Eq)]
pub enum Which {
    ProvedReal,
    Scanning,
    Keeping,
    ProvedIdeal,
    PlainIdeal,
}

impl Which {
    pub fn name(self) -> &'static str {
        match self {
            Which::ProvedReal => "proved real",
            Which::Scanning => "plain real, scanning",
            Which::Keeping => "plain real, same tables",
            Which::ProvedIdeal => "proved ideal",
            Which::PlainIdeal => "plain ideal",
        }
    }

    /// A box of this kind; none of a proved kind where the library is not linked.
    pub fn new(self) -> Option<Box<dyn Switch>> {
        match self {
            #[cfg(proved)]
            Which::ProvedReal => Some(Box::new(proved::Real::new())),
            #[cfg(proved)]
            Which::ProvedIdeal => Some(Box::new(proved::Ideal::new())),
            #[cfg(not(proved))]
            Which::ProvedReal | Which::ProvedIdeal => None,
            Which::Scanning => Some(Box::new(plain::scanning())),
            Which::Keeping => Some(Box::new(plain::keeping())),
            Which::PlainIdeal => Some(Box::new(plain::ideal())),
        }
    }
}

pub const ALL: [Which; 5] =
    [Which::ProvedReal, Which::Scanning, Which::Keeping, Which::ProvedIdeal, Which::PlainIdeal];

/// What the benchmark gives as ratios: the first to the second.
pub const RATIOS: [(Which, Which); 3] = [
    (Which::ProvedReal, Which::Scanning),
    (Which::ProvedReal, Which::Keeping),
    (Which::ProvedIdeal, Which::PlainIdeal),
];

/// How many kinds of boxes there are: the proved ones only where the library is linked.
pub fn count() -> usize {
    if cfg!(proved) { ALL.len() } else { ALL.len() - 2 }
}

pub struct Named {
    pub which: Which,
    pub switch: Box<dyn Switch>,
}

/// One box of each kind that there is.
pub fn all() -> Vec<Named> {
    ALL.iter().filter_map(|&which| Some(Named { which, switch: which.new()? })).collect()
}

/// What an answer's buffer holds before: a byte that it must keep behind the answer.
const UNTOUCHED: u8 = 0x5a;

/// Boxes that take the same words, and whose answers are compared byte for byte, with what lies behind them.
pub struct SideBySide {
    boxes: Vec<Named>,
    outs: Vec<Answer>,
    /// How long the last answer was: so much is made untouched again.
    used: usize,
}

impl SideBySide {
    pub fn new() -> Self {
        let boxes = all();
        let outs = vec![[UNTOUCHED; LONGEST_ANSWER]; boxes.len()];
        SideBySide { boxes, outs, used: 0 }
    }

    /// The answer of all boxes to a word, or what differs.
    pub fn answer(&mut self, word: &[u8]) -> Result<&[u8], String> {
        for out in &mut self.outs {
            out[..self.used].fill(UNTOUCHED);
        }
        let lens = self.boxes.iter_mut().zip(&mut self.outs).map(|(named, out)| named.switch.answer(word, out));
        let lens: [usize; ALL.len()] = collect(lens);
        let used = lens[0];
        for (k, named) in self.boxes.iter().enumerate() {
            let (name, other) = (named.which.name(), self.boxes[0].which.name());
            if lens[k] != used {
                return Err(format!("{name} answers with {} bytes, {other} with {used}", lens[k]));
            }
            if self.outs[k][..used] != self.outs[0][..used] {
                return Err(format!("{name} answers otherwise than {other}"));
            }
            if self.outs[k][used..] != [UNTOUCHED; LONGEST_ANSWER][used..] {
                return Err(format!("{name} writes behind its answer"));
            }
        }
        self.used = used;
        Ok(&self.outs[0][..used])
    }

    /// How often outputs have asked so far in a plain real box.
    pub fn asks(&self) -> u64 {
        self.boxes.iter().map(|named| named.switch.asks()).max().unwrap_or(0)
    }
}

/// The first items in an array, and zeros behind them.
fn collect<const N: usize>(items: impl Iterator<Item = usize>) -> [usize; N] {
    let mut array = [0; N];
    for (place, item) in array.iter_mut().zip(items) {
        *place = item;
    }
    array
}
