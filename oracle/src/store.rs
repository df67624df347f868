//! The store of two owners by the scope's words: each owner's map is built anew from the lent arrays at each call, and laid out again behind it. Nothing of it
//! is document 000's.

pub const ENTRIES: usize = 32;
const OWN: usize = ENTRIES + 2;
const LEFT: usize = 1 + 2 * OWN;
const LIST: usize = LEFT + 1;
const MOST: usize = 65536;

/// What an owner holds, in the order in which the blocks stand.
type Held = Vec<(u16, Vec<u8>)>;

/// Lengths are such as a set-up leaves, and so are room, quotas and what they leave over: these three add up to the room.
fn laid(list: &[usize], tiles: &[u16], bytes: &[u8]) -> bool {
    let sum = |list: &[usize]| [list[1], list[1 + OWN], list[LEFT]].iter().map(|&x| x as u128).sum::<u128>();
    list.len() == LIST && tiles.len() == 2 * ENTRIES && list[0] <= MOST && bytes.len() == list[0] && sum(list) == list[0] as u128
}

/// An owner's arrays read as a map; else 34 or 39.
fn read(owner: usize, list: &[usize], tiles: &[u16], bytes: &[u8]) -> Result<Held, usize> {
    if owner > 1 {
        return Err(34);
    }
    if !laid(list, tiles, bytes) {
        return Err(39);
    }
    let own = &list[1 + owner * OWN..][..OWN];
    let start = if owner == 0 { 0 } else { list[1] };
    let mut rest = &bytes[start..start + own[0]];
    if own[1] > ENTRIES {
        return Err(39);
    }
    let mut held = Held::new();
    for (&tile, &length) in tiles[owner * ENTRIES..].iter().zip(&own[2..]).take(own[1]) {
        let (block, behind) = rest.split_at_checked(length).ok_or(39usize)?;
        if held.iter().any(|&(other, _)| other == tile) {
            return Err(39);
        }
        held.push((tile, block.to_vec()));
        rest = behind;
    }
    Ok(held)
}

/// An owner's map into its arrays: what it doesn't fill stays as it was.
fn lay(owner: usize, held: &Held, list: &mut [usize], tiles: &mut [u16], bytes: &mut [u8]) {
    let mut at = if owner == 0 { 0 } else { list[1] };
    let own = &mut list[1 + owner * OWN..][..OWN];
    own[1] = held.len();
    for (k, (tile, block)) in held.iter().enumerate() {
        tiles[owner * ENTRIES + k] = *tile;
        own[2 + k] = block.len();
        bytes[at..at + block.len()].copy_from_slice(block);
        at += block.len();
    }
}

pub fn set_up(quota0: usize, quota1: usize, list: &mut [usize], tiles: &[u16], bytes: &[u8]) -> usize {
    if bytes.len() > MOST {
        return 37;
    }
    if quota0.checked_add(quota1).is_none_or(|both| both > bytes.len()) {
        return 35;
    }
    if list.len() != LIST || tiles.len() != 2 * ENTRIES {
        return 39;
    }
    list[0] = bytes.len();
    for (owner, quota) in [quota0, quota1].into_iter().enumerate() {
        list[1 + owner * OWN] = quota;
        list[2 + owner * OWN] = 0;
    }
    list[LEFT] = bytes.len() - (quota0 + quota1);
    0
}

pub fn reset(list: &mut [usize], tiles: &[u16], bytes: &[u8]) -> usize {
    if (0..2).any(|owner| read(owner, list, tiles, bytes).is_err()) {
        return 39;
    }
    for owner in 0..2 {
        list[2 + owner * OWN] = 0;
    }
    0
}

pub fn put(owner: usize, list: &mut [usize], tiles: &mut [u16], bytes: &mut [u8], tile: u16, block: &[u8]) -> usize {
    let mut held = match read(owner, list, tiles, bytes) {
        Ok(held) => held,
        Err(refusal) => return refusal,
    };
    if held.iter().any(|&(other, _)| other == tile) {
        return 31;
    }
    if held.len() == ENTRIES {
        return 33;
    }
    if held.iter().map(|(_, b)| b.len()).sum::<usize>() + block.len() > list[1 + owner * OWN] {
        return 30;
    }
    held.push((tile, block.to_vec()));
    lay(owner, &held, list, tiles, bytes);
    0
}

/// The answer and the length.
pub fn length(owner: usize, list: &[usize], tiles: &[u16], bytes: &[u8], tile: u16) -> (usize, usize) {
    match read(owner, list, tiles, bytes) {
        Ok(held) => match held.iter().find(|&&(other, _)| other == tile) {
            Some((_, block)) => (0, block.len()),
            None => (32, 0),
        },
        Err(refusal) => (refusal, 0),
    }
}

pub fn fetch(owner: usize, list: &[usize], tiles: &[u16], bytes: &[u8], tile: u16, out: &mut [u8]) -> usize {
    let held = match read(owner, list, tiles, bytes) {
        Ok(held) => held,
        Err(refusal) => return refusal,
    };
    let Some((_, block)) = held.iter().find(|&&(other, _)| other == tile) else { return 32 };
    if out.len() != block.len() {
        return 6;
    }
    out.copy_from_slice(block);
    0
}

pub fn drop(owner: usize, list: &mut [usize], tiles: &mut [u16], bytes: &mut [u8], tile: u16) -> usize {
    let mut held = match read(owner, list, tiles, bytes) {
        Ok(held) => held,
        Err(refusal) => return refusal,
    };
    let Some(k) = held.iter().position(|&(other, _)| other == tile) else { return 32 };
    held.remove(k);
    lay(owner, &held, list, tiles, bytes);
    0
}
