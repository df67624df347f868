//! The tally by the scope's words: the figures are looked through as one list of numbers with their limits. Nothing of it is document 000's.

#[repr(C)]
pub struct Tally {
    tiles: usize,
    counts: [usize; 16],
    passes: usize,
    most: usize,
    first: usize,
}

const TILES: usize = 65_536;
const PASSES: usize = 256 * 60;

impl Tally {
    /// Whether a tile more may be added: each figure is at most what the tiles before a last one can make it.
    fn has_room(&self) -> bool {
        let figures = [(self.tiles, TILES - 1), (self.passes, TILES * PASSES), (self.most, PASSES), (self.first, TILES - 1)];
        figures.into_iter().chain(self.counts.map(|count| (count, TILES))).all(|(figure, limit)| figure <= limit)
    }
}

pub fn add(tally: &mut Tally, answer: usize, passes: usize) -> usize {
    if answer >= tally.counts.len() || passes > PASSES {
        return 38;
    }
    if !tally.has_room() {
        return 36;
    }
    if passes > tally.most {
        (tally.most, tally.first) = (passes, tally.tiles);
    }
    tally.tiles += 1;
    tally.counts[answer] += 1;
    tally.passes += passes;
    0
}
