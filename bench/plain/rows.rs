// Rows of places: shifted rows for lists, rings for queues and stores.

use super::words::ROOM;

/// A list. By the slack of its cells it never has more than 256: as many earlier ones stand in a cell's store as stand
/// ahead of it in its list.
#[derive(Clone)]
pub struct Row {
    len: usize,
    places: [u16; ROOM],
}

impl Row {
    pub const EMPTY: Row = Row { len: 0, places: [0; ROOM] };

    pub fn clear(&mut self) {
        self.len = 0;
    }

    #[inline]
    pub fn len(&self) -> usize {
        self.len
    }

    #[inline]
    pub fn places(&self) -> &[u16] {
        &self.places[..self.len]
    }

    /// Puts a place behind the first k.
    #[inline]
    pub fn insert(&mut self, k: usize, place: u16) {
        self.places.copy_within(k..self.len, k + 1);
        self.places[k] = place;
        self.len += 1;
    }

    /// Takes out the place behind the first k.
    #[inline]
    pub fn remove(&mut self, k: usize) -> u16 {
        let place = self.places[k];
        self.places.copy_within(k + 1..self.len, k);
        self.len -= 1;
        place
    }
}

/// A queue or a store: 256 entries, so that an index of 8 bits goes round by itself.
#[derive(Clone)]
pub struct Ring {
    len: u16,
    front: u8,
    places: [u16; ROOM],
}

impl Ring {
    pub const EMPTY: Ring = Ring { len: 0, front: 0, places: [0; ROOM] };

    pub fn clear(&mut self) {
        self.len = 0;
    }

    #[inline]
    pub fn len(&self) -> usize {
        usize::from(self.len)
    }

    #[inline]
    pub fn push_back(&mut self, place: u16) {
        let end = self.front.wrapping_add(self.len as u8);
        self.places[usize::from(end)] = place;
        self.len += 1;
    }

    #[inline]
    pub fn pop_front(&mut self) -> Option<u16> {
        if self.len == 0 {
            return None;
        }
        let place = self.places[usize::from(self.front)];
        self.front = self.front.wrapping_add(1);
        self.len -= 1;
        Some(place)
    }

    /// Puts a place before those at the end that are later.
    #[inline]
    pub fn insert_sorted(&mut self, place: u16, is_later: impl Fn(u16) -> bool) {
        let mut at = self.front.wrapping_add(self.len as u8);
        for _ in 0..self.len {
            let ahead = self.places[usize::from(at.wrapping_sub(1))];
            if !is_later(ahead) {
                break;
            }
            self.places[usize::from(at)] = ahead;
            at = at.wrapping_sub(1);
        }
        self.places[usize::from(at)] = place;
        self.len += 1;
    }
}
