//! The stored cases of `crates/test_blocks`: blocks, cut and changed ones, lookups and writes, with what `block` says of them. Numbers are big-endian;
//! a case's own are u32, an answer's u64.

use crate::block::{self, Part};
use crate::cases::Random;
use std::io::{self, Write};

/// A case as the program reads it, and what it must write.
struct Case {
    asked: Vec<u8>,
    wanted: Vec<u8>,
}

fn small(numbers: &[usize]) -> Vec<u8> {
    numbers.iter().flat_map(|&x| (x as u32).to_be_bytes()).collect()
}

fn large(numbers: &[usize]) -> Vec<u8> {
    numbers.iter().flat_map(|&x| (x as u64).to_be_bytes()).collect()
}

/// The nine numbers of the reader's record.
fn reads(t: &[u8]) -> Case {
    let mut numbers = [0; 9];
    match block::read(t) {
        Err(answer) => numbers[0] = answer,
        Ok(b) => {
            (numbers[1], numbers[2]) = (b.rows, b.columns);
            for (kind, range) in b.parts {
                (numbers[1 + 2 * kind], numbers[2 + 2 * kind]) = (range.start, range.len() / 8);
            }
        }
    }
    Case { asked: [small(&[1, t.len()]), t.to_vec()].concat(), wanted: large(&numbers) }
}

/// What is found, the part's length, and its bytes.
fn finds(own: &[u8], main: &[u8], kind: usize) -> Case {
    let found = block::find(own, main, kind);
    let part = block::part(own, main, &found);
    let block::Found { block, start, count, rows, columns, own_answer, main_answer } = found;
    Case {
        asked: [small(&[2, kind, own.len(), main.len()]), own.to_vec(), main.to_vec()].concat(),
        wanted: [large(&[block, start, count, rows, columns, own_answer, main_answer, part.len()]), part.to_vec()].concat(),
    }
}

/// The length that the kinds give.
fn lengths(rows: usize, columns: usize, count: usize, kinds: [usize; 3]) -> Case {
    Case { asked: small(&[&[3, rows, columns, count], &kinds[..]].concat()), wanted: large(&[block::length(rows, columns, count, kinds)]) }
}

/// The answer, and the destination, which holds 238 before.
fn writes(rows: usize, columns: usize, count: usize, parts: &[Part; 3], length: usize) -> Case {
    let mut out = vec![238; length];
    let answer = block::write(rows, columns, count, parts, &mut out);
    let mut asked = small(&[4, rows, columns, count]);
    for (kind, words) in parts {
        asked.extend(small(&[*kind, words.len()]));
        words.iter().for_each(|w| asked.extend(w.to_be_bytes()));
    }
    asked.extend(small(&[length]));
    Case { asked, wanted: [large(&[answer]), out].concat() }
}

/// Words of all sorts: NaNs with payloads, infinities, zeros, any bits.
fn word(rng: &mut Random) -> u64 {
    match rng.below(6) {
        0 => 0x7ff8_0000_0000_0001,
        1 => 0xfff0_0000_0000_0000,
        2 => 1 << 63,
        3 => u64::MAX,
        _ => rng.word(),
    }
}

fn content(rng: &mut Random, rows: usize, columns: usize, kinds: &[usize]) -> Vec<Part> {
    kinds.iter().map(|&kind| (kind, (0..block::count_of(rows, columns, kind).unwrap()).map(|_| word(rng)).collect())).collect()
}

const SUBSETS: [&[usize]; 8] = [&[], &[1], &[2], &[3], &[1, 2], &[1, 3], &[2, 3], &[1, 2, 3]];

fn all() -> Vec<Case> {
    let rng = &mut Random::new(14);
    let mut cases = Vec::new();
    // A block of every set of parts, and of sizes where there are few numbers or none.
    for kinds in SUBSETS {
        cases.push(reads(&block::block_of(2, 3, &content(rng, 2, 3, kinds))));
    }
    for (rows, columns) in [(0, 0), (0, 256), (256, 1), (1, 1), (7, 5)] {
        cases.push(reads(&block::block_of(rows, columns, &content(rng, rows, columns, SUBSETS[7]))));
    }
    // One of them cut at each edge, and with bytes over.
    let full = block::block_of(2, 1, &content(rng, 2, 1, SUBSETS[7]));
    for end in [0, 1, 11, 12, 13, 47, 48, 49, full.len() - 1] {
        cases.push(reads(&full[..end]));
    }
    cases.push(reads(&[&full[..], &[0]].concat()));
    // Each number of the header changed.
    for field in 0..12 {
        for value in [0, 1, 2, 4, 257, 1 << 31, u32::MAX] {
            let mut t = full.clone();
            t[4 * field..4 * field + 4].copy_from_slice(&u32::to_be_bytes(value));
            cases.push(reads(&t));
        }
    }
    // The lookup, among refused blocks too.
    for at in 0..SUBSETS.len() {
        let own = block::block_of(1, 2, &content(rng, 1, 2, SUBSETS[at]));
        let main = block::block_of(2, 2, &content(rng, 2, 2, SUBSETS[7 - at]));
        for kind in 0..5 {
            cases.push(finds(&own, &main, kind));
        }
        cases.push(finds(&own[..own.len() - 1], &main, 1 + at % 3));
        cases.push(finds(&own, &[&main[..], &[0]].concat(), 1 + at % 3));
        cases.push(finds(&[], &main, 1 + at % 3));
        cases.push(finds(&own, &[], u32::MAX as usize));
    }
    for (rows, columns, count) in [(2, 3, 0), (2, 3, 1), (3, 2, 2), (256, 256, 3), (0, 9, 3), (257, 1, 1), (1, 257, 0), (1, 1, 4)] {
        for kinds in [[1, 2, 3], [2, 3, 0], [3, 1, 2], [0, 1, 2], [1, 1, 4]] {
            cases.push(lengths(rows, columns, count, kinds));
        }
    }
    // The writer: every set of parts, then what it refuses.
    let none: Part = (0, Vec::new());
    for kinds in SUBSETS {
        let mut parts = content(rng, 2, 2, kinds);
        parts.resize(3, none.clone());
        let parts: [Part; 3] = parts.try_into().unwrap();
        let length = 12 + kinds.iter().map(|&k| 12 + 8 * block::count_of(2, 2, k).unwrap()).sum::<usize>();
        for long in [length, length - 1, length + 1, 0] {
            cases.push(writes(2, 2, kinds.len(), &parts, long));
        }
        for (rows, columns, count) in [(257, 2, 3), (2, 257, 0), (2, 2, 4), (2, 2, 3), (3, 2, 1), (2, 2, u32::MAX as usize)] {
            cases.push(writes(rows, columns, count, &parts, length));
        }
        let [a, b, c] = parts;
        cases.push(writes(2, 2, 2, &[b.clone(), a.clone(), c.clone()], length));
        cases.push(writes(2, 2, 3, &[a.clone(), a.clone(), c.clone()], length));
        cases.push(writes(2, 2, 3, &[a, b, (4, c.1)], length));
    }
    cases
}

pub fn list(out: &mut impl Write) -> io::Result<()> {
    let cases = all();
    out.write_all(&small(&[cases.len()]))?;
    cases.iter().try_for_each(|case| out.write_all(&case.asked))
}

pub fn wanted(out: &mut impl Write) -> io::Result<()> {
    all().iter().try_for_each(|case| out.write_all(&case.wanted))
}
