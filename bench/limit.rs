// All the 2^32 slots that a box takes after its settings, on one line; then the refusal, and a new beginning.

use crate::plain::{BODY, NONE, SETTINGS, SLOT};
use crate::switch::{Answer, LONGEST_ANSWER, Switch};
use crate::table::thousands;
use std::time::Instant;

pub const MOST_SLOTS: u64 = 1 << 32;

/// So many slots without a cell, then one with a cell.
const STRETCH: u64 = 1 << 20;

const EMPTY: [u8; 2] = [SLOT, NONE];

type Outcome = Result<(), String>;

fn full_word(slot: u64) -> [u8; 2 + BODY] {
    let mut word = [slot as u8; 2 + BODY];
    word[..2].copy_from_slice(&[SLOT, 0]);
    word
}

/// On one line a cell leaves in the slot in which it arrives.
fn full_answer(slot: u64) -> Vec<u8> {
    let body = &full_word(slot)[2..];
    [&[3, 0], &(slot as u32).to_be_bytes()[..], body, &[0]].concat()
}

fn expect(switch: &mut impl Switch, word: &[u8], want: &[u8], slot: u64) -> Outcome {
    let mut out = [0; LONGEST_ANSWER];
    let len = switch.answer(word, &mut out);
    if out[..len] == *want { Ok(()) } else { Err(format!("slot {slot}: {word:02x?} is answered by {:02x?}", &out[..len])) }
}

fn empty_slots(switch: &mut impl Switch, first: u64, end: u64, out: &mut Answer) -> Outcome {
    for slot in first..end {
        let len = switch.answer(&EMPTY, out);
        if len != 3 || out[..3] != [3, NONE, 0] {
            return Err(format!("slot {slot}: an empty one is answered by {:02x?}", &out[..len]));
        }
    }
    Ok(())
}

fn stretch(switch: &mut impl Switch, first: u64, end: u64, out: &mut Answer) -> Outcome {
    empty_slots(switch, first, end - 1, out)?;
    expect(switch, &full_word(end - 1), &full_answer(end - 1), end - 1)
}

/// What a box does when it has had all its slots: faults of the word come first, then the limit.
fn at_the_end(switch: &mut impl Switch) -> Outcome {
    for _ in 0..3 {
        expect(switch, &EMPTY, &[5, 4], MOST_SLOTS)?;
        expect(switch, &full_word(1), &[5, 4], MOST_SLOTS)?;
        expect(switch, &[SLOT, 1], &[5, 1], MOST_SLOTS)?;
        expect(switch, &[SETTINGS, 33], &[5, 2], MOST_SLOTS)?;
    }
    let mut no_such_output = full_word(1);
    no_such_output[1] = 1;
    expect(switch, &no_such_output, &[5, 3], MOST_SLOTS)?;
    println!("  the next slot is refused with 5 4");
    expect(switch, &[SETTINGS, 1], &[], MOST_SLOTS)?;
    expect(switch, &full_word(0), &full_answer(0), 0)?;
    expect(switch, &EMPTY, &[3, NONE, 0], 1)?;
    println!("  a settings word begins anew: slot 0 is answered");
    Ok(())
}

/// Runs so many slots, and shows the refusal where they are all that a box takes.
pub fn run(name: &str, switch: &mut impl Switch, slots: u64) -> Outcome {
    println!("{name}: {} slots", thousands(slots));
    let (start, mut out) = (Instant::now(), [0; LONGEST_ANSWER]);
    expect(switch, &[SETTINGS, 1], &[], 0)?;
    for first in (0..slots).step_by(STRETCH as usize) {
        stretch(switch, first, slots.min(first + STRETCH), &mut out)?;
        if first % (MOST_SLOTS / 16) == 0 && first > 0 {
            println!("  {} after {:.0} s", thousands(first), start.elapsed().as_secs_f64());
        }
    }
    println!("  all answered, {:.1} ns a slot", start.elapsed().as_nanos() as f64 / slots as f64);
    if slots == MOST_SLOTS { at_the_end(switch) } else { Ok(()) }
}
