// Words that are wrong, nearly all of them, made from right ones.

use crate::plain::{BODY, MOST_LINES, NONE, SETTINGS};
use crate::random::Random;
use crate::traffic::push_slot_word;

/// A number of no output on so many lines.
fn no_output(random: &mut Random, lines: usize) -> u8 {
    let other = random.between(lines, 254) as u8;
    random.one_of(&[lines as u8, 32, 33, 254, other])
}

fn push_random(word: &mut Vec<u8>, len: usize, random: &mut Random) {
    word.extend((0..len).map(|_| random.byte()));
}

fn cut(word: &mut Vec<u8>, random: &mut Random) {
    word.truncate(random.below(word.len().max(1)));
}

fn extend(word: &mut Vec<u8>, random: &mut Random) {
    let len = random.one_of(&[1, 1, 2, BODY, BODY + 1, 300]);
    push_random(word, len, random);
}

/// A slot in which cells arrive by some inputs, one of them for no output where that is asked for.
fn some_slot(word: &mut Vec<u8>, inputs: usize, lines: usize, wrong: bool, random: &mut Random) {
    let mut row = [NONE; MOST_LINES + 1];
    for output in &mut row[..inputs] {
        if random.chance(0.6) {
            *output = random.below(lines) as u8;
        }
    }
    if wrong {
        row[random.below(inputs)] = no_output(random, lines);
    }
    word.clear();
    push_slot_word(word, &row[..inputs], random);
}

fn change_byte(word: &mut [u8], at: usize, random: &mut Random) {
    if let Some(byte) = word.get_mut(at) {
        *byte = random.byte();
    }
}

/// Damages a word for so many lines.
pub fn damage(word: &mut Vec<u8>, lines: usize, random: &mut Random) {
    match random.below(13) {
        0 => word.clear(),
        1 => cut(word, random),
        2 => extend(word, random),
        3 => change_byte(word, 0, random),
        4 => *word = vec![random.one_of(&[0, 1, 2, 3, 4, 5, 128, 255])],
        5 => *word = vec![SETTINGS, random.one_of(&[0, 33, 64, 255])],
        6 => {
            *word = vec![SETTINGS];
            let len = random.one_of(&[0, 2, 3, BODY + 2]);
            push_random(word, len, random);
        }
        7 => some_slot(word, lines, lines, true, random),
        8 => {
            some_slot(word, lines, lines, true, random);
            cut(word, random);
        }
        9 => {
            some_slot(word, lines, lines, true, random);
            extend(word, random);
        }
        10 => some_slot(word, lines + 1, lines, false, random),
        11 => {
            *word = vec![4];
            word.extend((0..lines).map(|_| random.one_of(&[NONE, 0])));
        }
        _ => {
            let at = random.below(word.len().max(1));
            change_byte(word, at, random);
        }
    }
}
