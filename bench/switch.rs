// What every box of the benchmark is: a thing that answers words.

/// Room for the longest answer: 1 + 32 * 69 + 32 bytes.
pub const LONGEST_ANSWER: usize = 2241;

pub type Answer = [u8; LONGEST_ANSWER];

pub trait Switch {
    /// Takes a word, writes its answer to the front of `out`, and gives the answer's length, 0 where there is none.
    fn answer(&mut self, word: &[u8], out: &mut Answer) -> usize;

    /// How often outputs have asked since the box was made, where it is counted.
    fn asks(&self) -> u64 {
        0
    }
}
