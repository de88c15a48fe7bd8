// Slots that bring the real box to long findings.
//
// How they do it: each output has its last cells at inputs 0, 1, 2 and so on, and older cells besides, just so many that
// these are transferred up to the last slot, in each transfer every output's from an input of its own. In the last slot
// no older cell is left: all outputs ask the same inputs in the same order, and all but one are refused each time. A
// schedule of that kind was made by a program, and bettered by changes that made the last slot's asks no fewer.

use crate::plain::{MOST_LINES, NONE};
use crate::random::Random;
use crate::traffic::Words;

/// A line for each slot, a character for each input: 0 to 9 and a to v for outputs 0 to 31, a point for nothing.
const SLOTS: &str = include_str!("longest.txt");

fn output(character: char) -> u8 {
    character.to_digit(32).map_or(NONE, |output| output as u8)
}

/// Settings and the slots, of which the last has the most asks.
pub fn words() -> Words {
    let mut random = Random::new(1);
    let mut words = Words::settings(MOST_LINES);
    for slot in SLOTS.lines() {
        let arrivals: Vec<u8> = slot.chars().map(output).collect();
        words.push_slot(&arrivals, &mut random);
    }
    words
}
