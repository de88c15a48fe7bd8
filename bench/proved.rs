// The proved boxes, through the C interface of include/zagbolu.h.

use crate::switch::{Answer, Switch};

#[repr(C)]
#[derive(Clone, Copy)]
struct Head {
    slot: u32,
    input: u8,
    output: u8,
    owner: u16,
}

type Cell = [u8; 64];

#[repr(C)]
struct Memory {
    heads: *mut Head,
    heads_len: usize,
    cells: *mut Cell,
    cells_len: usize,
    rows: *mut u16,
    rows_len: usize,
    spare: *mut u16,
    spare_len: usize,
    room: usize,
    lens: [u16; 64],
    starts: [u16; 64],
    free: usize,
    places: u16,
    count: u8,
}

#[repr(C)]
struct Firsts {
    waiting: [u32; 32],
    slots: [u32; 1024],
    places: [u16; 1024],
}

#[repr(C)]
struct RealBox {
    memory: Memory,
    firsts: *mut Firsts,
    slots: u64,
    held: [u16; 32],
    lines: u8,
}

#[repr(C)]
struct IdealBox {
    memory: Memory,
    slots: u64,
    lines: u8,
}

unsafe extern "C" {
    safe fn zagbolu_places() -> usize;
    safe fn zagbolu_box_rows() -> usize;
    safe fn zagbolu_ideal_rows() -> usize;
    fn zagbolu_box_make(real: *mut RealBox) -> bool;
    fn zagbolu_ideal_make(ideal: *mut IdealBox) -> bool;
    fn zagbolu_box_answer(real: *mut RealBox, word: *const u8, word_len: usize, answer: *mut Answer) -> usize;
    fn zagbolu_ideal_answer(ideal: *mut IdealBox, word: *const u8, word_len: usize, answer: *mut Answer) -> usize;
}

/// What a box is lent, filled with a pattern, since what it holds at first must not matter.
struct Lent {
    heads: Vec<Head>,
    cells: Vec<Cell>,
    rows: Vec<u16>,
    spare: Vec<u16>,
}

impl Lent {
    fn new(rows: usize) -> Self {
        let places = zagbolu_places();
        Lent {
            heads: vec![Head { slot: 0xa5a5_a5a5, input: 0xa5, output: 0xa5, owner: 0xa5a5 }; places],
            cells: vec![[0xa5; 64]; places],
            rows: vec![0xa5a5; rows],
            spare: vec![0xa5a5; places],
        }
    }

    fn memory(&mut self) -> Memory {
        Memory {
            heads: self.heads.as_mut_ptr(),
            heads_len: self.heads.len(),
            cells: self.cells.as_mut_ptr(),
            cells_len: self.cells.len(),
            rows: self.rows.as_mut_ptr(),
            rows_len: self.rows.len(),
            spare: self.spare.as_mut_ptr(),
            spare_len: self.spare.len(),
            room: 7,
            lens: [7; 64],
            starts: [7; 64],
            free: 7,
            places: 7,
            count: 7,
        }
    }
}

/// The proved real box.
pub struct Real {
    real: RealBox,
    /// What the pointers in `real` lead to.
    _lent: (Lent, Vec<Firsts>),
}

impl Real {
    pub fn new() -> Self {
        let mut lent = Lent::new(zagbolu_box_rows());
        let mut firsts = vec![Firsts { waiting: [7; 32], slots: [7; 1024], places: [7; 1024] }];
        let (memory, table) = (lent.memory(), firsts.as_mut_ptr());
        let mut real = RealBox { memory, firsts: table, slots: 7, held: [7; 32], lines: 7 };
        // SAFETY: the box and all that is lent to it are valid, apart, and used by nobody else.
        let made = unsafe { zagbolu_box_make(&mut real) };
        assert!(made, "what zagbolu_places and zagbolu_box_rows say is enough");
        Real { real, _lent: (lent, firsts) }
    }
}

impl Switch for Real {
    #[inline]
    fn answer(&mut self, word: &[u8], out: &mut Answer) -> usize {
        // SAFETY: as above; the box is made, and word and answer are borrowed for the call.
        unsafe { zagbolu_box_answer(&mut self.real, word.as_ptr(), word.len(), out) }
    }
}

/// The proved ideal box.
pub struct Ideal {
    ideal: IdealBox,
    /// What the pointers in `ideal` lead to.
    _lent: Lent,
}

impl Ideal {
    pub fn new() -> Self {
        let mut lent = Lent::new(zagbolu_ideal_rows());
        let mut ideal = IdealBox { memory: lent.memory(), slots: 7, lines: 7 };
        // SAFETY: the box and all that is lent to it are valid, apart, and used by nobody else.
        let made = unsafe { zagbolu_ideal_make(&mut ideal) };
        assert!(made, "what zagbolu_places and zagbolu_ideal_rows say is enough");
        Ideal { ideal, _lent: lent }
    }
}

impl Switch for Ideal {
    #[inline]
    fn answer(&mut self, word: &[u8], out: &mut Answer) -> usize {
        // SAFETY: as above; the box is made, and word and answer are borrowed for the call.
        unsafe { zagbolu_ideal_answer(&mut self.ideal, word.as_ptr(), word.len(), out) }
    }
}
