// What the ideal box and the real box have in common: words are read, faults refused, slots counted.

use super::words::{Arrival, Fault, MOST_LINES, SETTINGS, SLOT, Writer, read_arrivals, read_settings, write_refusal};
use crate::switch::{Answer, Switch};

/// A box that takes slots whose words are known to be good.
pub trait Machine {
    /// Begins anew and empty.
    fn begin(&mut self, lines: usize);

    /// One slot, with what arrives by each line: writes what leaves; a set bit for each input whose cell is rejected.
    fn slot(&mut self, slot: u32, arrivals: &[Arrival], writer: &mut Writer) -> u32;

    fn asks(&self) -> u64 {
        0
    }
}

pub struct Plain<M> {
    machine: M,
    /// 0 before the first settings.
    lines: usize,
    slots: u64,
}

impl<M: Machine> Plain<M> {
    pub fn over(machine: M) -> Self {
        Plain { machine, lines: 0, slots: 0 }
    }

    fn settings(&mut self, rest: &[u8]) -> Result<usize, Fault> {
        self.lines = read_settings(rest)?;
        self.slots = 0;
        self.machine.begin(self.lines);
        Ok(0)
    }

    fn slot(&mut self, rest: &[u8], out: &mut Answer) -> Result<usize, Fault> {
        let mut arrivals = [None; MOST_LINES];
        let arrivals = &mut arrivals[..self.lines];
        read_arrivals(rest, arrivals)?;
        let slot = u32::try_from(self.slots).map_err(|_| Fault::SlotLimit)?;
        let mut writer = Writer::new(out);
        let rejected = self.machine.slot(slot, arrivals, &mut writer);
        self.slots += 1;
        Ok(writer.rejects(self.lines, rejected))
    }

    fn take(&mut self, word: &[u8], out: &mut Answer) -> Result<usize, Fault> {
        match word {
            [SETTINGS, rest @ ..] => self.settings(rest),
            [SLOT, rest @ ..] if self.lines > 0 => self.slot(rest, out),
            _ => Err(Fault::Malformed),
        }
    }
}

impl<M: Machine> Switch for Plain<M> {
    fn answer(&mut self, word: &[u8], out: &mut Answer) -> usize {
        self.take(word, out).unwrap_or_else(|fault| write_refusal(fault, out))
    }

    fn asks(&self) -> u64 {
        self.machine.asks()
    }
}
