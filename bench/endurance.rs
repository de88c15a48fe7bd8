// Millions of slots through all boxes side by side: traffic of all kinds, new settings now and then, damaged words.

use crate::boxes::SideBySide;
use crate::damage::damage;
use crate::plain::{MOST_LINES, SETTINGS};
use crate::random::Random;
use crate::table::thousands;
use crate::traffic::{Kind, Source, push_slot_word};
use std::time::Instant;

/// How likely a word is damaged, and how likely it is a settings word.
const DAMAGE: f64 = 0.02;
const ANEW: f64 = 0.0005;

/// The words, one after the other.
struct Stream {
    random: Random,
    lines: usize,
    source: Source,
    /// How many slots the traffic stays of one kind.
    left: usize,
}

impl Stream {
    fn new(seed: u64) -> Self {
        Stream { random: Random::new(seed), lines: 1, source: Kind::Silent.source(1, 0.0), left: 0 }
    }

    fn begin(&mut self, lines: usize) {
        self.lines = lines;
        self.left = 0;
    }

    fn slot(&mut self, word: &mut Vec<u8>) {
        if self.left == 0 {
            let (kind, load) = (self.random.one_of(&Kind::ALL), self.random.one_of(&[0.3, 0.7, 0.95, 1.0]));
            self.source = kind.source(self.lines, load);
            self.left = self.random.between(1, 1500);
        }
        self.left -= 1;
        let row = (self.source)(&mut self.random);
        push_slot_word(word, &row[..self.lines], &mut self.random);
    }

    fn next(&mut self, word: &mut Vec<u8>) {
        word.clear();
        if self.random.chance(ANEW) {
            let few = self.random.between(1, MOST_LINES);
            let lines = self.random.one_of(&[few, few, MOST_LINES]);
            word.extend_from_slice(&[SETTINGS, lines as u8]);
        } else {
            self.slot(word);
        }
        if self.random.chance(DAMAGE) {
            damage(word, self.lines, &mut self.random);
        }
    }
}

/// How much memory of this process is in use.
fn resident() -> String {
    let status = std::fs::read_to_string("/proc/self/status").unwrap_or_default();
    let line = status.lines().find_map(|line| line.strip_prefix("VmRSS:"));
    line.map_or("unknown".to_string(), |size| size.trim().to_string())
}

#[derive(Default)]
struct Counts {
    words: u64,
    slots: u64,
    settings: u64,
    /// By the number of the fault.
    refused: [u64; 8],
}

impl Counts {
    fn note(&mut self, answer: &[u8]) {
        self.words += 1;
        match answer {
            [] => self.settings += 1,
            [5, fault, ..] => self.refused[usize::from(*fault) % 8] += 1,
            _ => self.slots += 1,
        }
    }

    fn print(&self) {
        let refused: u64 = self.refused.iter().sum();
        println!(
            "{} slots, {} settings, {} words refused (fault 1: {}, 2: {}, 3: {}); all answers alike",
            thousands(self.slots),
            thousands(self.settings),
            thousands(refused),
            thousands(self.refused[1]),
            thousands(self.refused[2]),
            thousands(self.refused[3]),
        );
    }
}

/// Whether so many slots went by without a difference.
pub fn run(slots: u64, seed: u64) -> bool {
    let (mut boxes, mut stream, mut counts) = (SideBySide::new(), Stream::new(seed), Counts::default());
    let mut word = Vec::with_capacity(1 << 12);
    let start = Instant::now();
    println!("seed {seed}; in memory at the start: {}", resident());
    while counts.slots < slots {
        stream.next(&mut word);
        let answer = match boxes.answer(&word) {
            Ok(answer) => answer,
            Err(difference) => {
                println!("DIFFERENCE, seed {seed}, word {} (slot {}): {difference}", counts.words, counts.slots);
                println!("the word: {word:02x?}");
                return false;
            }
        };
        counts.note(answer);
        if answer.is_empty() {
            stream.begin(usize::from(word[1]));
        }
        if !answer.is_empty() && counts.slots % 1_000_000 == 0 && answer[0] == 3 {
            println!("{} slots after {:.0} s, in memory: {}", thousands(counts.slots), start.elapsed().as_secs_f64(), resident());
        }
    }
    counts.print();
    println!("in memory at the end: {}", resident());
    true
}
