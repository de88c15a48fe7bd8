// First cells, kept up to date as cells enter and leave the lists.

use super::finding::Firsts;
use super::pool::{Head, Pool};
use super::real::Table;
use super::rows::Row;
use super::words::MOST_LINES;

pub struct Kept {
    firsts: Firsts,
}

impl Kept {
    pub fn new() -> Self {
        Kept { firsts: Firsts::new() }
    }
}

/// A cell was put in behind the first k: those from there on stand one further back. Entries without a cell are moved
/// too, and mean nothing.
#[inline]
fn move_back(places: &mut [u16; MOST_LINES], k: u16) {
    for place in places {
        *place = place.saturating_add(u16::from(*place >= k));
    }
}

/// The cell behind the first k was taken out: those behind it stand one further ahead.
#[inline]
fn move_ahead(places: &mut [u16; MOST_LINES], k: u16) {
    for place in places {
        *place -= u16::from(*place > k);
    }
}

impl Table for Kept {
    fn clear(&mut self) {
        self.firsts.clear();
    }

    /// A new cell stands behind all others of its pair, so it is the first only where there is none.
    #[inline]
    fn entered(&mut self, head: Head, k: usize) {
        let (input, output) = (head.input(), head.output());
        move_back(&mut self.firsts.places[input], k as u16);
        if !self.firsts.has(input, output) {
            self.firsts.set(input, output, head.slot(), k);
        }
    }

    /// The next of the pair stands behind the one that left.
    #[inline]
    fn left(&mut self, head: Head, k: usize, list: &Row, pool: &Pool) {
        let (input, output) = (head.input(), head.output());
        move_ahead(&mut self.firsts.places[input], k as u16);
        let behind = &list.places()[k..];
        match behind.iter().position(|&place| pool.head(place).output() == output) {
            Some(gap) => {
                let next = pool.head(behind[gap]);
                self.firsts.set(input, output, next.slot(), k + gap);
            }
            None => self.firsts.unset(input, output),
        }
    }

    #[inline]
    fn prepare(&mut self, _: &[Row], _: &Pool) {}

    #[inline]
    fn firsts(&self) -> &Firsts {
        &self.firsts
    }
}
