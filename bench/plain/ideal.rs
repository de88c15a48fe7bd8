// The ideal box: a queue for each output.

use super::machine::Machine;
use super::pool::{Head, Pool};
use super::rows::Ring;
use super::words::{Arrival, MOST_LINES, ROOM, Writer};

pub struct IdealBox {
    pool: Pool,
    queues: [Ring; MOST_LINES],
}

impl IdealBox {
    pub fn new() -> Self {
        IdealBox { pool: Pool::new(), queues: [Ring::EMPTY; MOST_LINES] }
    }

    fn arrive(&mut self, slot: u32, arrivals: &[Arrival]) -> u32 {
        let mut rejected = 0;
        for (input, arrival) in arrivals.iter().enumerate() {
            let &Some((output, body)) = arrival else { continue };
            let queue = &mut self.queues[usize::from(output)];
            if queue.len() == ROOM {
                rejected |= 1 << input;
            } else {
                queue.push_back(self.pool.put(Head::new(slot, input, usize::from(output)), body));
            }
        }
        rejected
    }

    fn depart(&mut self, lines: usize, writer: &mut Writer) {
        for queue in &mut self.queues[..lines] {
            let Some(place) = queue.pop_front() else {
                writer.no_departure();
                continue;
            };
            let head = self.pool.head(place);
            writer.departure(head.input() as u8, head.slot(), self.pool.body(place));
            self.pool.give_back(place);
        }
    }
}

impl Machine for IdealBox {
    fn begin(&mut self, lines: usize) {
        self.pool.clear(lines);
        self.queues.iter_mut().for_each(Ring::clear);
    }

    fn slot(&mut self, slot: u32, arrivals: &[Arrival], writer: &mut Writer) -> u32 {
        let rejected = self.arrive(slot, arrivals);
        self.depart(arrivals.len(), writer);
        rejected
    }
}
