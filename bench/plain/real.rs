// The real box: a list for each input, a store for each output, and two transfers a slot.

use super::finding::{Firsts, Lines, find};
use super::machine::Machine;
use super::pool::{Head, Pool};
use super::rows::{Ring, Row};
use super::words::{Arrival, Body, MOST_LINES, ROOM, Writer};

/// How a box comes by the first waiting cell of each pair.
pub trait Table {
    fn clear(&mut self);

    /// A cell was put into the list of its input, behind the first k.
    fn entered(&mut self, head: Head, k: usize);

    /// A cell was taken out of the list of its input, from behind the first k.
    fn left(&mut self, head: Head, k: usize, list: &Row, pool: &Pool);

    /// A transfer begins: from now on the table must be that of these lists.
    fn prepare(&mut self, lists: &[Row], pool: &Pool);

    fn firsts(&self) -> &Firsts;
}

pub struct RealBox<T> {
    pool: Pool,
    lists: Box<[Row; MOST_LINES]>,
    stores: Box<[Ring; MOST_LINES]>,
    /// By output, how many cells are held for it, in all lists and in its store.
    held: [u16; MOST_LINES],
    table: T,
    asks: u64,
}

impl<T: Table> RealBox<T> {
    pub fn new(table: T) -> Self {
        RealBox {
            pool: Pool::new(),
            lists: Box::new([Row::EMPTY; MOST_LINES]),
            stores: Box::new([Ring::EMPTY; MOST_LINES]),
            held: [0; MOST_LINES],
            table,
            asks: 0,
        }
    }

    /// Puts a cell into the list of its input, or rejects it.
    #[inline]
    fn admit(&mut self, head: Head, body: &Body) -> bool {
        let output = head.output();
        if usize::from(self.held[output]) == ROOM {
            return false;
        }
        self.held[output] += 1;
        let list = &mut self.lists[head.input()];
        let k = self.stores[output].len().min(list.len());
        list.insert(k, self.pool.put(head, body));
        self.table.entered(head, k);
        true
    }

    fn arrive(&mut self, slot: u32, arrivals: &[Arrival]) -> u32 {
        let mut rejected = 0;
        for (input, arrival) in arrivals.iter().enumerate() {
            let &Some((output, body)) = arrival else { continue };
            if !self.admit(Head::new(slot, input, usize::from(output)), body) {
                rejected |= 1 << input;
            }
        }
        rejected
    }

    /// Carries the cell behind the first k of a list to its place in its store.
    #[inline]
    fn carry(&mut self, input: usize, k: usize) {
        let list = &mut self.lists[input];
        let place = list.remove(k);
        let pool = &self.pool;
        let head = pool.head(place);
        self.table.left(head, k, list, pool);
        self.stores[head.output()].insert_sorted(place, |other| pool.head(other) > head);
    }

    /// What an input sends stands where the table says until then, since no input sends twice.
    fn transfer(&mut self, lines: usize) {
        self.table.prepare(&self.lists[..lines], &self.pool);
        let found = find(self.table.firsts());
        self.asks += u64::from(found.asks);
        for input in Lines(found.senders) {
            self.carry(input, usize::from(found.places[input]));
        }
    }

    fn depart(&mut self, lines: usize, writer: &mut Writer) {
        for (store, held) in self.stores[..lines].iter_mut().zip(&mut self.held) {
            let Some(place) = store.pop_front() else {
                writer.no_departure();
                continue;
            };
            *held -= 1;
            let head = self.pool.head(place);
            writer.departure(head.input() as u8, head.slot(), self.pool.body(place));
            self.pool.give_back(place);
        }
    }
}

impl<T: Table> Machine for RealBox<T> {
    fn begin(&mut self, lines: usize) {
        self.pool.clear(lines);
        self.lists.iter_mut().for_each(Row::clear);
        self.stores.iter_mut().for_each(Ring::clear);
        self.held = [0; MOST_LINES];
        self.table.clear();
    }

    fn slot(&mut self, slot: u32, arrivals: &[Arrival], writer: &mut Writer) -> u32 {
        let lines = arrivals.len();
        let rejected = self.arrive(slot, arrivals);
        self.transfer(lines);
        self.depart(lines, writer);
        self.transfer(lines);
        rejected
    }

    fn asks(&self) -> u64 {
        self.asks
    }
}
