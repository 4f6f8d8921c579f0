//! The memory of a chip, and copies of it.
use crate::ffi::{BlockCell, PAGE};

/// How many blocks a chip has, and how many pages each of them.
#[derive(Clone, Copy, PartialEq, Eq, Debug)]
pub struct Geometry {
    pub blocks: u32,
    pub pages: u32,
}

impl Geometry {
    pub fn new(blocks: u32, pages: u32) -> Self {
        Geometry { blocks, pages }
    }

    /// Pages of all blocks.
    pub fn total(self) -> u64 {
        u64::from(self.blocks) * u64::from(self.pages)
    }

    /// Sectors of a drive on such a chip.
    pub fn sectors(self) -> u32 {
        (5 * self.total() / 8) as u32
    }

    /// The memory that a drive on such a chip is lent.
    pub fn room(self) -> usize {
        1_048_576 + 64 * self.blocks as usize + 8 * self.total() as usize
    }

    /// From this much work on, the drive may be worn out.
    pub fn most_work(self) -> u64 {
        90 * self.total()
    }
}

impl std::fmt::Display for Geometry {
    fn fmt(&self, f: &mut std::fmt::Formatter<'_>) -> std::fmt::Result {
        write!(f, "{}x{}", self.blocks, self.pages)
    }
}

/// 4,352 bytes and a state for each page (0 blank, 1 written, 2 torn), and a cell for each block.
#[derive(Clone)]
pub struct Chip {
    pub geometry: Geometry,
    pub bytes: Vec<u8>,
    pub states: Vec<u8>,
    pub cells: Vec<BlockCell>,
}

impl Chip {
    pub fn new(geometry: Geometry) -> Self {
        let total = geometry.total() as usize;
        let cells = vec![BlockCell::default(); geometry.blocks as usize];
        Chip { geometry, bytes: vec![0; total * PAGE], states: vec![0; total], cells }
    }

    /// Becomes as `earlier`, a state that this chip was in before. What a block holds changes only together with its cell, and a cell never comes
    /// to be what it was, so only blocks whose cells differ are copied.
    pub fn restore(&mut self, earlier: &Chip) {
        self.copy_changed(earlier);
    }

    /// Becomes as `later`, a state that came of the one that this chip is in.
    pub fn advance(&mut self, later: &Chip) {
        self.copy_changed(later);
    }

    fn copy_changed(&mut self, from: &Chip) {
        let pages = self.geometry.pages as usize;
        for block in 0..self.cells.len() {
            if self.cells[block] == from.cells[block] {
                continue;
            }
            let span = block * pages..(block + 1) * pages;
            self.cells[block] = from.cells[block];
            self.states[span.clone()].copy_from_slice(&from.states[span.clone()]);
            let bytes = span.start * PAGE..span.end * PAGE;
            self.bytes[bytes.clone()].copy_from_slice(&from.bytes[bytes]);
        }
    }

    /// The bytes of a page.
    pub fn page(&self, block: u32, page: u32) -> &[u8] {
        let place = block as usize * self.geometry.pages as usize + page as usize;
        &self.bytes[place * PAGE..(place + 1) * PAGE]
    }

    /// The state of a page.
    pub fn state(&self, block: u32, page: u32) -> u8 {
        self.states[block as usize * self.geometry.pages as usize + page as usize]
    }

    /// The most erasings of any block.
    pub fn most_erased(&self) -> u32 {
        self.cells.iter().map(|cell| cell.erases).max().unwrap_or(0)
    }
}

#[cfg(test)]
mod tests {
    use super::*;

    #[test]
    fn a_chip_is_restored_where_cells_differ() {
        let earlier = Chip::new(Geometry::new(32, 16));
        let mut chip = earlier.clone();
        chip.cells[3].next = 1;
        chip.states[48] = 1;
        chip.bytes[48 * PAGE] = 7;
        let later = chip.clone();
        chip.restore(&earlier);
        assert!(chip.bytes == earlier.bytes && chip.states == earlier.states && chip.cells == earlier.cells);
        chip.advance(&later);
        assert!(chip.bytes == later.bytes && chip.states == later.states && chip.cells == later.cells);
    }

    #[test]
    fn sizes() {
        let geometry = Geometry::new(32, 16);
        assert_eq!((geometry.total(), geometry.sectors(), geometry.most_work()), (512, 320, 46_080));
        assert_eq!(std::mem::size_of::<BlockCell>(), 12);
    }
}
