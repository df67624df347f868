//! The transform block of the scope: a reader, a writer and a lookup of its own, from the rule's words alone. Nothing here is document 000's.

use std::ops::Range;

/// A part: its kind and its numbers by their bits.
pub type Part = (usize, Vec<u64>);

#[derive(Clone, Debug, PartialEq)]
pub struct Block {
    pub rows: usize,
    pub columns: usize,
    /// Kind and the bytes where its numbers stand, in the order of the entries.
    pub parts: Vec<(usize, Range<usize>)>,
}

/// How many numbers a part of that kind holds, or none where there is no such kind.
pub fn count_of(rows: usize, columns: usize, kind: usize) -> Option<usize> {
    match kind {
        1 => Some(rows.min(columns)),
        2 | 3 => Some(rows * columns),
        _ => None,
    }
}

/// The next big-endian u32, if there are four bytes left.
fn take(rest: &mut &[u8]) -> Option<usize> {
    let (four, behind) = rest.split_first_chunk::<4>()?;
    *rest = behind;
    Some(u32::from_be_bytes(*four) as usize)
}

/// What a block holds, or the refusal.
pub fn read(block: &[u8]) -> Result<Block, usize> {
    let mut rest = block;
    let mut first = [0; 3];
    for number in &mut first {
        *number = take(&mut rest).ok_or(20usize)?;
    }
    let [rows, columns, count] = first;
    if rows > 256 || columns > 256 || count > 3 {
        return Err(22);
    }
    let mut entries = Vec::new();
    for _ in 0..count {
        let mut entry = [0; 3];
        for number in &mut entry {
            *number = take(&mut rest).ok_or(20usize)?;
        }
        entries.push(entry);
    }
    let mut parts: Vec<(usize, Range<usize>)> = Vec::new();
    let mut end = block.len() - rest.len();
    for [kind, offset, numbers] in entries {
        let Some(wanted) = count_of(rows, columns, kind) else { return Err(23) };
        if parts.last().is_some_and(|(before, _)| *before >= kind) {
            return Err(23);
        }
        if numbers != wanted {
            return Err(22);
        }
        if offset != end {
            return Err(24);
        }
        end += 8 * numbers;
        parts.push((kind, offset..end));
    }
    match block.len() {
        n if n < end => Err(20),
        n if n > end => Err(21),
        _ => Ok(Block { rows, columns, parts }),
    }
}

/// What the lookup says of two blocks and a kind.
#[derive(Clone, Copy, Debug, Default, PartialEq)]
pub struct Found {
    /// 1 the tile's own block, 2 the main one, 0 neither.
    pub block: usize,
    /// Where in it the part starts, and how many numbers it has.
    pub start: usize,
    pub count: usize,
    /// That block's.
    pub rows: usize,
    pub columns: usize,
    /// What the reader says of each block: 0, or the refusal.
    pub own_answer: usize,
    pub main_answer: usize,
}

pub fn find(own: &[u8], main: &[u8], kind: usize) -> Found {
    let (own, main) = (read(own), read(main));
    let answer = |block: &Result<Block, usize>| block.as_ref().err().copied().unwrap_or(0);
    let answers = Found { own_answer: answer(&own), main_answer: answer(&main), ..Found::default() };
    for (which, block) in [(1, &own), (2, &main)] {
        let Ok(block) = block else { continue };
        if let Some((_, range)) = block.parts.iter().find(|(k, _)| *k == kind) {
            return Found { block: which, start: range.start, count: range.len() / 8, rows: block.rows, columns: block.columns, ..answers };
        }
    }
    answers
}

/// The bytes of that part.
pub fn part<'a>(own: &'a [u8], main: &'a [u8], found: &Found) -> &'a [u8] {
    let block = if found.block == 1 { own } else { main };
    &block[found.start..found.start + 8 * found.count]
}

/// The numbers of that part, by their bits, for so much room; before them the place, which is the reader's answer for the tile's own block. Or 6.
pub fn copied(own: &[u8], main: &[u8], kind: usize, room: usize) -> Result<(usize, Vec<u64>), usize> {
    let found = find(own, main, kind);
    if found.count != room {
        return Err(6);
    }
    let words = part(own, main, &found).chunks_exact(8).map(|eight| u64::from_be_bytes(eight.try_into().unwrap()));
    Ok((found.own_answer, words.collect()))
}

/// Refusals 22 and 23 for what is to be written, in the reader's order; each part by its kind and count.
fn refusal(rows: usize, columns: usize, count: usize, heads: &[(usize, usize)]) -> Option<usize> {
    if rows > 256 || columns > 256 || count > 3 {
        return Some(22);
    }
    let mut before = 0;
    for &(kind, numbers) in &heads[..count] {
        match count_of(rows, columns, kind) {
            Some(wanted) if kind > before => {
                if numbers != wanted {
                    return Some(22);
                }
            }
            _ => return Some(23),
        }
        before = kind;
    }
    None
}

/// The block of a content that is one.
pub fn block_of(rows: usize, columns: usize, parts: &[Part]) -> Vec<u8> {
    let mut out = Vec::new();
    let mut put = |x: usize| out.extend((x as u32).to_be_bytes());
    put(rows);
    put(columns);
    put(parts.len());
    let mut offset = 12 + 12 * parts.len();
    for (kind, words) in parts {
        put(*kind);
        put(offset);
        put(words.len());
        offset += 8 * words.len();
    }
    parts.iter().flat_map(|(_, words)| words).for_each(|word| out.extend(word.to_be_bytes()));
    out
}

/// The writer: the first `count` of three parts.
pub fn write(rows: usize, columns: usize, count: usize, parts: &[Part; 3], out: &mut [u8]) -> usize {
    let heads: Vec<(usize, usize)> = parts.iter().map(|(kind, words)| (*kind, words.len())).collect();
    if let Some(refused) = refusal(rows, columns, count, &heads) {
        return refused;
    }
    let block = block_of(rows, columns, &parts[..count]);
    if block.len() != out.len() {
        return 6;
    }
    out.copy_from_slice(&block);
    0
}

/// How long the block of the first `count` of three kinds is; 0 where the writer refuses it.
pub fn length(rows: usize, columns: usize, count: usize, kinds: [usize; 3]) -> usize {
    if rows > 256 || columns > 256 || count > 3 {
        return 0;
    }
    let heads = kinds.map(|kind| (kind, count_of(rows, columns, kind).unwrap_or(0)));
    match refusal(rows, columns, count, &heads) {
        Some(_) => 0,
        None => 12 + heads[..count].iter().map(|(_, numbers)| 12 + 8 * numbers).sum::<usize>(),
    }
}
