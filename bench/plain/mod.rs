// Boxes in plain Rust, written apart from the proved ones: what the proved ones are held to and measured against.

mod finding;
mod ideal;
mod kept;
mod machine;
mod pool;
mod real;
mod rows;
mod scanned;
mod words;

pub use words::{BODY, MOST_LINES, NONE, ROOM, SETTINGS, SLOT};

use crate::switch::Switch;
use machine::Plain;
use real::RealBox;

/// One finding over the table with the most asks that there are; how many they are.
pub struct HardestFinding(finding::Firsts);

impl HardestFinding {
    pub fn new() -> Self {
        HardestFinding(finding::Firsts::hardest())
    }

    pub fn find(&self) -> u32 {
        finding::find(&self.0).asks
    }
}

/// The ideal box: a ring for each queue.
pub fn ideal() -> impl Switch {
    Plain::over(ideal::IdealBox::new())
}

/// The real box that goes through its lists for the first cell of each pair before each transfer.
pub fn scanning() -> impl Switch {
    Plain::over(RealBox::new(scanned::Scanned::new()))
}

/// The real box that keeps the first cell of each pair up to date.
pub fn keeping() -> impl Switch {
    Plain::over(RealBox::new(kept::Kept::new()))
}
