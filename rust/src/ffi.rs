//! The declarations of the proved library, each wrapped in a safe function. There is no unsafe code elsewhere.
use crate::chip::Chip;

pub const PAGE: usize = 4352;
pub const DATA: usize = 4096;
pub const PIECE: usize = 256;
pub const MARK: usize = 32;

/// What the chip in memory notes of a block: its next page, whether it was erased as a whole, whether it is bad, and its erasings.
#[repr(C)]
#[derive(Clone, Copy, PartialEq, Eq, Debug, Default)]
pub struct BlockCell {
    pub next: u32,
    pub clean: bool,
    pub bad: bool,
    pub erases: u32,
}

/// How a script is to be played.
#[repr(C)]
pub struct Setup {
    pub seed: u64,
    /// In the seeded modes one programming or erasing in so many fails where it may; 0 stands for 512.
    pub one_in: u64,
    pub blocks: u32,
    pub pages: u32,
    /// 0 plain, 1 random, 2 adversarial.
    pub mode: u32,
    /// A new chip is made in the memory; else the chip that it holds is resumed.
    pub fresh: bool,
    /// The play ends at the first cut.
    pub once: bool,
    pub trace: bool,
}

/// What is told of a play beside its output.
#[repr(C)]
#[derive(Clone, Copy, Debug, Default)]
pub struct Report {
    pub printed: u64,
    pub lines: u64,
    pub reads: u64,
    pub programs: u64,
    pub erasings: u64,
    pub most_rise: u64,
    pub most_turn: u64,
    pub cuts: u64,
}

mod raw {
    use super::{BlockCell, Report, Setup};

    extern "C" {
        pub fn codec_seal(page: *mut u8, page_len: usize, mark: *const u8, mark_len: usize) -> bool;
        pub fn codec_unseal(page: *mut u8, page_len: usize) -> bool;
        pub fn chip_read(pages: *mut u8, pages_len: usize, page: *mut u8, page_len: usize, seed: u64, times: u64) -> u64;
        #[rustfmt::skip]
        pub fn play(
            script: *const u8, script_len: usize, bytes: *mut u8, bytes_len: usize, states: *mut u8, states_len: usize,
            cells: *mut BlockCell, cells_len: usize, bad: *const u32, bad_len: usize, room: *mut u8, room_len: usize,
            out: *mut u8, out_len: usize, setup: &Setup, report: &mut Report,
        ) -> u32;
        #[rustfmt::skip]
        pub fn chip_fill(
            bytes: *mut u8, bytes_len: usize, states: *mut u8, states_len: usize, cells: *mut BlockCell, cells_len: usize,
            page: *mut u8, page_len: usize, blocks: u32, pages: u32,
        ) -> u64;
        #[rustfmt::skip]
        pub fn chip_scan(
            bytes: *mut u8, bytes_len: usize, states: *mut u8, states_len: usize, cells: *mut BlockCell, cells_len: usize,
            page: *mut u8, page_len: usize, blocks: u32, pages: u32,
        ) -> u64;
    }
}

/// Writes the mark and what mends a page behind its 4,096 bytes of data.
pub fn seal(page: &mut [u8; PAGE], mark: &[u8; MARK]) {
    assert!(unsafe { raw::codec_seal(page.as_mut_ptr(), page.len(), mark.as_ptr(), mark.len()) });
}

/// Mends the data of a page in place.
pub fn unseal(page: &mut [u8; PAGE]) {
    assert!(unsafe { raw::codec_unseal(page.as_mut_ptr(), page.len()) });
}

/// Makes a chip of 32 blocks of 16 pages in the lent memory, writes its first page and reads it so often; how often that went well.
pub fn read_chip(memory: &mut [u8], page: &mut [u8; PAGE], seed: u64, times: u64) -> u64 {
    unsafe { raw::chip_read(memory.as_mut_ptr(), memory.len(), page.as_mut_ptr(), page.len(), seed, times) }
}

/// Plays a script: 0 all lines were played, 1 it ended at a cut, 2 no such chip or more than 65,536 pages, 3 room too small, 4 output too small.
pub fn play(script: &str, chip: &mut Chip, bad: &[u32], room: &mut [u8], out: &mut [u8], setup: &Setup) -> (u32, Report) {
    let mut report = Report::default();
    let (bytes, states, cells) = (&mut chip.bytes, &mut chip.states, &mut chip.cells);
    #[rustfmt::skip]
    let status = unsafe {
        raw::play(
            script.as_ptr(), script.len(), bytes.as_mut_ptr(), bytes.len(), states.as_mut_ptr(), states.len(),
            cells.as_mut_ptr(), cells.len(), bad.as_ptr(), bad.len(), room.as_mut_ptr(), room.len(),
            out.as_mut_ptr(), out.len(), setup, &mut report,
        )
    };
    (status, report)
}

/// Makes a plain chip, erases each block and programs every page; how many pages went well.
pub fn chip_fill(chip: &mut Chip, page: &mut [u8; PAGE]) -> u64 {
    let (blocks, pages) = (chip.geometry.blocks, chip.geometry.pages);
    let (bytes, states, cells) = (&mut chip.bytes, &mut chip.states, &mut chip.cells);
    #[rustfmt::skip]
    let done = unsafe {
        raw::chip_fill(
            bytes.as_mut_ptr(), bytes.len(), states.as_mut_ptr(), states.len(), cells.as_mut_ptr(), cells.len(),
            page.as_mut_ptr(), page.len(), blocks, pages,
        )
    };
    done
}

/// Reads and unseals every page of such a chip; how many went well.
pub fn chip_scan(chip: &mut Chip, page: &mut [u8; PAGE]) -> u64 {
    let (blocks, pages) = (chip.geometry.blocks, chip.geometry.pages);
    let (bytes, states, cells) = (&mut chip.bytes, &mut chip.states, &mut chip.cells);
    #[rustfmt::skip]
    let done = unsafe {
        raw::chip_scan(
            bytes.as_mut_ptr(), bytes.len(), states.as_mut_ptr(), states.len(), cells.as_mut_ptr(), cells.len(),
            page.as_mut_ptr(), page.len(), blocks, pages,
        )
    };
    done
}
