//! Times of the archive's store: what a call takes to look the list through and to find its tile, and how fast it moves bytes, beside `memmove`.

use super::{crewelmarsh_store_drop_abi5, crewelmarsh_store_fetch_abi5, crewelmarsh_store_length_abi5, crewelmarsh_store_put_abi5, crewelmarsh_store_setup_abi5, least};
use std::hint::black_box;

const ENTRIES: usize = 32;
const LIST: usize = 70;
const TILES: usize = 64;

/// A store of so many blocks of owner 0, who has the whole buffer, tile 0 the first.
#[derive(Clone)]
struct Store {
    list: Vec<usize>,
    tiles: Vec<u16>,
    bytes: Vec<u8>,
}

impl Store {
    fn new(lengths: &[usize]) -> Store {
        let mut s = Store { list: vec![0; LIST], tiles: vec![0; TILES], bytes: vec![0; 65536] };
        let (list, tiles, bytes) = (s.list.as_mut_ptr(), s.tiles.as_ptr(), s.bytes.as_ptr());
        assert_eq!(unsafe { crewelmarsh_store_setup_abi5(65536, 0, list, LIST, tiles, TILES, bytes, 65536) }.answer, 0);
        for (tile, &length) in lengths.iter().enumerate() {
            s.put(tile as u16, &vec![tile as u8; length]);
        }
        s
    }

    fn put(&mut self, tile: u16, block: &[u8]) {
        let (list, tiles, bytes) = (self.list.as_mut_ptr(), self.tiles.as_mut_ptr(), self.bytes.as_mut_ptr());
        let done = unsafe { crewelmarsh_store_put_abi5(0, list, LIST, tiles, TILES, bytes, 65536, tile, block.as_ptr(), block.len()) };
        assert_eq!(done.answer, 0);
    }

    fn length(&self, tile: u16) -> usize {
        let (list, tiles, bytes) = (self.list.as_ptr(), self.tiles.as_ptr(), self.bytes.as_ptr());
        unsafe { crewelmarsh_store_length_abi5(0, list, LIST, tiles, TILES, bytes, 65536, tile) }.count
    }

    fn fetch(&self, tile: u16, out: &mut [u8]) {
        let (list, tiles, bytes) = (self.list.as_ptr(), self.tiles.as_ptr(), self.bytes.as_ptr());
        let done = unsafe { crewelmarsh_store_fetch_abi5(0, list, LIST, tiles, TILES, bytes, 65536, tile, out.as_mut_ptr(), out.len()) };
        assert_eq!(done.answer, 0);
    }

    fn drop(&mut self, tile: u16) {
        let (list, tiles, bytes) = (self.list.as_mut_ptr(), self.tiles.as_mut_ptr(), self.bytes.as_mut_ptr());
        let done = unsafe { crewelmarsh_store_drop_abi5(0, list, LIST, tiles, TILES, bytes, 65536, tile) };
        assert_eq!(done.answer, 0);
    }

    /// The list as it was, so that the same call can be made again: the bytes need not be.
    fn back(&mut self, was: &Store) {
        self.list.copy_from_slice(&was.list);
        self.tiles.copy_from_slice(&was.tiles);
    }
}

/// memmove of `n` bytes by one; then a put, a fetch and a drop that move as many, each less the same call that moves none. The drop is of a block
/// of one byte in front of the last one.
fn moved(n: usize) -> [f64; 4] {
    let block = vec![7u8; n];
    let mut whole = vec![0u8; 65536];
    let mut out = vec![0u8; n];
    let before_put = Store::new(&[0; 7]);
    let before_drop = [Store::new(&[0, 0, 0, 0, 0, 0, 1, n]), Store::new(&[0, 0, 0, 0, 0, 0, 1, 0])];
    let held = [Store::new(&[0, 0, 0, 0, 0, 0, 0, n]), Store::new(&[0; 8])];
    let (mut a, mut b) = (before_put.clone(), before_put.clone());
    let (mut c, mut d) = (before_drop[0].clone(), before_drop[1].clone());
    let t = least(&mut [
        &mut || black_box(&mut whole[..]).copy_within(1..n + 1, 0),
        &mut || {
            a.back(&before_put);
            a.put(7, black_box(&block));
        },
        &mut || {
            b.back(&before_put);
            b.put(7, black_box(&[]));
        },
        &mut || held[0].fetch(7, black_box(&mut out)),
        &mut || held[1].fetch(7, black_box(&mut [])),
        &mut || {
            c.back(&before_drop[0]);
            c.drop(black_box(6));
        },
        &mut || {
            d.back(&before_drop[1]);
            d.drop(black_box(6));
        },
    ]);
    [t[0], t[1] - t[2], t[3] - t[4], t[5] - t[6]]
}

pub fn table() {
    println!("\nThe store. What a call takes before it moves a byte, in microseconds (`store_length` of the last tile):\n");
    println!("| blocks that the owner holds | time |");
    println!("|---|---|");
    for held in [1, 8, 16, ENTRIES] {
        let s = Store::new(&vec![1; held]);
        let last = held as u16 - 1;
        let time = least(&mut [&mut || assert_eq!(black_box(s.length(black_box(last))), 1)]);
        println!("| {held} | {:.3} |", time[0]);
    }
    println!("\nBytes moved, in nanoseconds, less what the call takes for an empty block; the share is that of memmove's speed:\n");
    println!("| bytes | memmove | put | share | fetch | share | drop | share |");
    println!("|---|---|---|---|---|---|---|---|");
    for n in [1024, 4096, 16384, 65000] {
        let t = moved(n).map(|x| x * 1000.0);
        println!("| {n} | {:.0} | {:.0} | {:.2} | {:.0} | {:.2} | {:.0} | {:.2} |", t[0], t[1], t[0] / t[1], t[2], t[0] / t[2], t[3], t[0] / t[3]);
    }
}
