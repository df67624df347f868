//! Pairs of numbers for hypot of edition 2, by their bits: a line `x+y`, 16 hexadecimal digits each, and the line wanted, as the program
//! `test_vectors` reads and writes them.

use crate::cases::Random;
use crate::hypot::hypot02;
use std::io::{self, Write};

const SIGN: u64 = 1 << 63;
const INFINITY: u64 = 0x7ff0_0000_0000_0000;

/// m * 2^k units of 2^-1074 where that is a double.
fn pattern(mut m: u64, mut k: u64) -> Option<u64> {
    while m >> 53 != 0 && m % 2 == 0 {
        m /= 2;
        k += 1;
    }
    while m != 0 && m >> 52 == 0 && k > 0 {
        m *= 2;
        k -= 1;
    }
    let whole = m >> 53 == 0 && k <= 2045;
    whole.then(|| if k == 0 { m } else { (k << 52) + m })
}

/// The legs of a whole right triangle whose third side has 54 digits and is odd: the root lies halfway between two doubles.
fn tie(rng: &mut Random) -> (u64, u64) {
    loop {
        let (u, v) = (rng.below(1 << 27), rng.below(1 << 27));
        let times = 1 + 2 * rng.below(3);
        let (u, v) = (u.max(v), u.min(v));
        let side = times * (u * u + v * v);
        if side >> 53 != 1 || side % 2 == 0 {
            continue;
        }
        let k = rng.below(2044);
        if let (Some(x), Some(y)) = (pattern(times * (u * u - v * v), k), pattern(times * 2 * u * v, k)) {
            return (x, y);
        }
    }
}

fn fraction(rng: &mut Random) -> u64 {
    let any = rng.word() >> 12;
    rng.of(&[0, 1, 2, (1 << 52) - 1, (1 << 52) - 2, 1 << 51, any, any, any])
}

fn pair(rng: &mut Random) -> (u64, u64) {
    let (x, y) = match rng.below(12) {
        0 => (rng.word(), rng.word()),
        1..=3 => {
            let field = rng.below(2047);
            let other = field.saturating_sub(rng.below(28));
            (field << 52 | rng.word() >> 12, other << 52 | rng.word() >> 12)
        }
        4 => {
            // exponents 24 to 30 apart
            let field = 31 + rng.below(2016);
            (field << 52 | fraction(rng), (field - 24 - rng.below(7)) << 52 | fraction(rng))
        }
        5 => tie(rng),
        6 => {
            let (x, y) = tie(rng);
            (x, (y + rng.below(5)).wrapping_sub(2) & !SIGN)
        }
        7 => {
            let (a, b) = (1 + rng.below(53), 1 + rng.below(53));
            (rng.word() >> (64 - a), rng.word() >> (64 - b))
        }
        8 => {
            // the sum's root is near the border of overflow
            let a = (1 << 52) + (rng.word() >> 12);
            let b = ((1u128 << 106) - (1 << 53) - a as u128 * a as u128).isqrt() as u64 + rng.below(5) - 2;
            (pattern(a, 2045).unwrap_or(INFINITY - 1), pattern(b.min((1 << 53) - 1), 2045).unwrap_or(1))
        }
        9 => (INFINITY - 1 - rng.below(3), (2046 - 24 - rng.below(7)) << 52 | fraction(rng)),
        10 => {
            let x = rng.word() & !SIGN;
            (x, x)
        }
        _ => {
            let payload = 1 + (rng.word() >> 12) % ((1 << 52) - 1);
            let special = [0, INFINITY, INFINITY | 1 << 51, INFINITY | payload, 1, 1 << 52, INFINITY - 1];
            let other = rng.word();
            (rng.of(&special), if rng.one_in(2) { rng.of(&special) } else { other })
        }
    };
    let (x, y) = if rng.one_in(2) { (x, y) } else { (y, x) };
    (x ^ (rng.below(2) << 63), y ^ (rng.below(2) << 63))
}

fn pairs(seed: u64, count: usize) -> impl Iterator<Item = (u64, u64)> {
    let mut rng = Random::new(seed);
    (0..count).map(move |_| pair(&mut rng))
}

pub fn given(out: &mut impl Write, seed: u64, count: usize) -> io::Result<()> {
    pairs(seed, count).try_for_each(|(x, y)| writeln!(out, "{x:016x}+{y:016x}"))
}

pub fn wanted(out: &mut impl Write, seed: u64, count: usize) -> io::Result<()> {
    pairs(seed, count).try_for_each(|(x, y)| {
        let r = hypot02(f64::from_bits(x), f64::from_bits(y));
        if r.is_nan() { writeln!(out, "nan") } else { writeln!(out, "{:016x}", r.to_bits()) }
    })
}

/// Of how many pairs the platform's hypot gives other bits than edition 2, any NaN being one.
pub fn platform(seed: u64, count: usize) -> usize {
    let differs = |(x, y): (u64, u64)| {
        let (x, y) = (f64::from_bits(x), f64::from_bits(y));
        let (r, s) = (x.hypot(y), hypot02(x, y));
        r.to_bits() != s.to_bits() && !(r.is_nan() && s.is_nan())
    };
    pairs(seed, count).filter(|&p| differs(p)).count()
}
