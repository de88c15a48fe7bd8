// First cells, found by going through the lists.

use super::finding::Firsts;
use super::pool::{Head, Pool};
use super::real::Table;
use super::rows::Row;

pub struct Scanned {
    firsts: Firsts,
}

impl Scanned {
    pub fn new() -> Self {
        Scanned { firsts: Firsts::new() }
    }

    fn scan(&mut self, input: usize, list: &Row, pool: &Pool) {
        let mut seen = 0u32;
        for (k, &place) in list.places().iter().enumerate() {
            let head = pool.head(place);
            let bit = 1 << head.output();
            if seen & bit == 0 {
                seen |= bit;
                self.firsts.set(input, head.output(), head.slot(), k);
            }
        }
    }
}

impl Table for Scanned {
    fn clear(&mut self) {}

    #[inline]
    fn entered(&mut self, _: Head, _: usize) {}

    #[inline]
    fn left(&mut self, _: Head, _: usize, _: &Row, _: &Pool) {}

    fn prepare(&mut self, lists: &[Row], pool: &Pool) {
        self.firsts.clear();
        for (input, list) in lists.iter().enumerate() {
            self.scan(input, list, pool);
        }
    }

    #[inline]
    fn firsts(&self) -> &Firsts {
        &self.firsts
    }
}
