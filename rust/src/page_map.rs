//! What each page of a chip is, read off its memory by the layout alone.
use crate::chip::Chip;
use crate::ffi::DATA;

#[derive(Clone, Copy, PartialEq, Eq, Debug)]
pub enum Kind {
    Header,
    VoidHeader,
    Live,
    Dead,
    Seal,
    Torn,
    Free,
    Bad,
}

/// A block of the log, and how many of its records count.
struct Stretch {
    block: u32,
    records: u32,
}

fn u32_at(bytes: &[u8], at: usize) -> u32 {
    u32::from_le_bytes(bytes[at..at + 4].try_into().expect("four bytes"))
}

fn u64_at(bytes: &[u8], at: usize) -> u64 {
    u64::from_le_bytes(bytes[at..at + 8].try_into().expect("eight bytes"))
}

/// The mark of a page that was written.
fn mark(chip: &Chip, block: u32, page: u32) -> Option<&[u8]> {
    (chip.state(block, page) == 1).then(|| &chip.page(block, page)[DATA..DATA + 32])
}

/// The header's order: how many blocks were bad, and its number; only where its commit page was written.
fn key(chip: &Chip, block: u32) -> Option<(u32, u64)> {
    let header = mark(chip, block, 0).filter(|mark| mark[0] == 1)?;
    let commit = u32::from(u16::from_le_bytes([header[2], header[3]]));
    mark(chip, block, commit.min(chip.geometry.pages - 1))?;
    Some((u32_at(header, 24), u64_at(header, 8)))
}

/// How many pages behind the header were written.
fn records_of_head(chip: &Chip, block: u32) -> u32 {
    (1..chip.geometry.pages).take_while(|page| chip.state(block, *page) == 1).count() as u32
}

/// The blocks of the log, the newest first, as far as headers have the numbers that name them.
fn log(chip: &Chip) -> Vec<Stretch> {
    let head = (0..chip.geometry.blocks).filter_map(|block| key(chip, block).map(|key| (key, block))).max();
    let Some((_, head)) = head else { return Vec::new() };
    let mut found = vec![Stretch { block: head, records: records_of_head(chip, head) }];
    let mut at = head;
    while found.len() < chip.geometry.blocks as usize {
        let data = chip.page(at, 0);
        let (number, before, records) = (u64_at(data, 8), u32_at(data, 32), u32_at(data, 36));
        let named = before < chip.geometry.blocks && mark(chip, before, 0).is_some_and(|mark| mark[0] == 1 && u64_at(mark, 8) == number);
        if !named {
            break;
        }
        found.push(Stretch { block: before, records });
        at = before;
    }
    found
}

/// The page of each sector's newest record that counts.
fn live_pages(chip: &Chip) -> Vec<Option<(u32, u32)>> {
    let mut places = vec![None; chip.geometry.sectors() as usize];
    for stretch in log(chip) {
        for page in (1..=stretch.records.min(chip.geometry.pages - 1)).rev() {
            let Some(mark) = mark(chip, stretch.block, page).filter(|mark| mark[0] == 2) else { continue };
            if let Some(place) = places.get_mut(u32_at(mark, 4) as usize) {
                place.get_or_insert((stretch.block, page));
            }
        }
    }
    places
}

fn kind(chip: &Chip, live: &[Option<(u32, u32)>], block: u32, page: u32) -> Kind {
    if chip.cells[block as usize].bad {
        return Kind::Bad;
    }
    match (chip.state(block, page), mark(chip, block, page)) {
        (2, _) => Kind::Torn,
        (_, None) => Kind::Free,
        (_, Some(mark)) => match mark[0] {
            1 => Kind::Header,
            5 => Kind::VoidHeader,
            4 => Kind::Seal,
            _ if live.get(u32_at(mark, 4) as usize) == Some(&Some((block, page))) => Kind::Live,
            _ => Kind::Dead,
        },
    }
}

/// What each page is, block by block.
pub fn page_map(chip: &Chip) -> Vec<Vec<Kind>> {
    let live = live_pages(chip);
    (0..chip.geometry.blocks).map(|block| (0..chip.geometry.pages).map(|page| kind(chip, &live, block, page)).collect()).collect()
}

#[cfg(test)]
mod tests {
    use super::*;
    use crate::chip::Geometry;
    use crate::ffi::PAGE;

    fn put(chip: &mut Chip, block: usize, page: usize, mark: &[(usize, u8)]) {
        let place = block * 16 + page;
        chip.states[place] = 1;
        mark.iter().for_each(|(at, byte)| chip.bytes[place * PAGE + DATA + at] = *byte);
    }

    #[test]
    fn the_newest_record_of_a_sector_is_live() {
        let mut chip = Chip::new(Geometry::new(32, 16));
        put(&mut chip, 4, 0, &[(0, 1), (2, 1), (8, 9)]);
        for block_byte in chip.bytes[64 * PAGE + 32..64 * PAGE + 36].iter_mut() {
            *block_byte = 255;
        }
        put(&mut chip, 4, 1, &[(0, 2), (4, 7)]);
        put(&mut chip, 4, 2, &[(0, 2), (4, 7)]);
        put(&mut chip, 4, 3, &[(0, 4)]);
        chip.states[4 * 16 + 4] = 2;
        chip.cells[5].bad = true;
        let map = page_map(&chip);
        assert_eq!(map[4][..6], [Kind::Header, Kind::Dead, Kind::Live, Kind::Seal, Kind::Torn, Kind::Free]);
        assert_eq!(map[5][0], Kind::Bad);
    }
}
