// The cells that a box holds, each in a place; free places are taken and given back at one end.

use super::words::{BODY, Body, MOST_LINES, ROOM};

/// As many places as a box can hold cells.
const PLACES: usize = MOST_LINES * ROOM;

/// Whose cell stands in a place: its slot, its input and its output, from the high bits down. So of two cells for one
/// output the earlier has the smaller head.
#[derive(Clone, Copy, PartialEq, Eq, PartialOrd, Ord)]
pub struct Head(u64);

impl Head {
    #[inline]
    pub fn new(slot: u32, input: usize, output: usize) -> Self {
        Head(u64::from(slot) << 16 | (input as u64) << 8 | output as u64)
    }

    #[inline]
    pub fn slot(self) -> u32 {
        (self.0 >> 16) as u32
    }

    #[inline]
    pub fn input(self) -> usize {
        (self.0 >> 8 & 0xff) as usize
    }

    #[inline]
    pub fn output(self) -> usize {
        (self.0 & 0xff) as usize
    }
}

pub struct Pool {
    heads: Box<[Head; PLACES]>,
    bodies: Box<[Body; PLACES]>,
    free: Vec<u16>,
}

fn boxed<T: Copy, const N: usize>(value: T) -> Box<[T; N]> {
    vec![value; N].into_boxed_slice().try_into().ok().expect("N values")
}

impl Pool {
    pub fn new() -> Self {
        Pool {
            heads: boxed(Head(0)),
            bodies: boxed([0; BODY]),
            free: Vec::with_capacity(PLACES),
        }
    }

    /// Makes all places free that so many lines need, the lowest to be taken first.
    pub fn clear(&mut self, lines: usize) {
        self.free.clear();
        self.free.extend((0..(lines * ROOM) as u16).rev());
    }

    #[inline]
    pub fn put(&mut self, head: Head, body: &Body) -> u16 {
        let place = self.free.pop().expect("a free place");
        self.heads[usize::from(place)] = head;
        self.bodies[usize::from(place)] = *body;
        place
    }

    #[inline]
    pub fn head(&self, place: u16) -> Head {
        self.heads[usize::from(place)]
    }

    #[inline]
    pub fn body(&self, place: u16) -> &Body {
        &self.bodies[usize::from(place)]
    }

    #[inline]
    pub fn give_back(&mut self, place: u16) {
        self.free.push(place);
    }
}
