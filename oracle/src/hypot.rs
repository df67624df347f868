//! hypot by its two editions: the scope's, a fixed sequence of rounded steps, and the correctly rounded one, by whole numbers of
//! any length.

use std::cmp::Ordering;

/// Edition 1.
pub fn hypot01(x: f64, y: f64) -> f64 {
    let (a, b) = if x.abs() < y.abs() { (y.abs(), x.abs()) } else { (x.abs(), y.abs()) };
    if a == 0.0 {
        return 0.0;
    }
    let q = b / a;
    a * (1.0 + q * q).sqrt()
}

/// Edition 2: an infinity first, also beside a NaN, then a NaN; else the double nearest to the root of x² + y², a tie to the even one.
pub fn hypot02(x: f64, y: f64) -> f64 {
    if x.is_infinite() || y.is_infinite() {
        return f64::INFINITY;
    }
    if x.is_nan() || y.is_nan() {
        return f64::from_bits(0x7ff8_0000_0000_0000);
    }
    f64::from_bits(nearest(x.abs().to_bits(), y.abs().to_bits()))
}

pub fn by_edition(edition: usize, x: f64, y: f64) -> f64 {
    if edition == 2 { hypot02(x, y) } else { hypot01(x, y) }
}

/// The pattern of infinity; among the numbers it stands for 2^1024.
const INFINITY: u64 = 0x7ff0_0000_0000_0000;

/// A pattern's number is m * 2^k units of 2^-1074.
fn parts(pattern: u64) -> (u64, u64) {
    let field = pattern >> 52;
    if field == 0 { (pattern, 0) } else { (pattern & ((1 << 52) - 1) | 1 << 52, field - 1) }
}

/// By a search over the patterns, with no root: the last one whose square is not above the sum, then the midpoint of it and the next one.
fn nearest(a: u64, b: u64) -> u64 {
    let last = parts(a.min(b)).1;
    // Each number in units of the smaller one's last digit: the patterns looked at have none below that.
    let value = |pattern: u64| {
        let (m, k) = parts(pattern);
        Whole::shifted(m, k - last)
    };
    let sum = value(a).squared().plus(&value(b).squared());
    // The root is from the greater number up to twice that.
    let (mut low, mut high) = (a.max(b), (a.max(b) + (1 << 52)).min(INFINITY));
    while high - low > 1 {
        let middle = low + (high - low) / 2;
        if value(middle).squared().order(&sum) == Ordering::Greater {
            high = middle;
        } else {
            low = middle;
        }
    }
    // At the midpoint four times the sum is the square of the sum of the two.
    match sum.times4().order(&value(low).plus(&value(high)).squared()) {
        Ordering::Less => low,
        Ordering::Greater => high,
        Ordering::Equal => low + low % 2,
    }
}

/// A whole number of any length, its 32-bit digits from the last on, no zero in front.
struct Whole(Vec<u32>);

impl Whole {
    fn trimmed(mut digits: Vec<u32>) -> Whole {
        while digits.last() == Some(&0) {
            digits.pop();
        }
        Whole(digits)
    }
    /// m * 2^k
    fn shifted(m: u64, k: u64) -> Whole {
        let mut digits = vec![0; (k / 32) as usize];
        let wide = (m as u128) << (k % 32);
        digits.extend((0..4).map(|i| (wide >> (32 * i)) as u32));
        Whole::trimmed(digits)
    }
    fn plus(&self, other: &Whole) -> Whole {
        let mut out = Vec::new();
        let mut carry = 0;
        for i in 0..self.0.len().max(other.0.len()) + 1 {
            let digit = |x: &Whole| *x.0.get(i).unwrap_or(&0) as u64;
            carry += digit(self) + digit(other);
            out.push(carry as u32);
            carry >>= 32;
        }
        Whole::trimmed(out)
    }
    fn squared(&self) -> Whole {
        let mut out = vec![0u32; 2 * self.0.len()];
        for (i, &x) in self.0.iter().enumerate() {
            let mut carry = 0u64;
            for (j, &y) in self.0.iter().enumerate() {
                carry += out[i + j] as u64 + x as u64 * y as u64;
                out[i + j] = carry as u32;
                carry >>= 32;
            }
            out[i + self.0.len()] = carry as u32;
        }
        Whole::trimmed(out)
    }
    fn times4(&self) -> Whole {
        let twice = self.plus(self);
        twice.plus(&twice)
    }
    fn order(&self, other: &Whole) -> Ordering {
        self.0.len().cmp(&other.0.len()).then_with(|| self.0.iter().rev().cmp(other.0.iter().rev()))
    }
}

/// Both as methods, so that document 000's text takes one by a change of the one name.
pub trait Hypot {
    fn hypot01(self, other: f64) -> f64;
    fn hypot02(self, other: f64) -> f64;
}

impl Hypot for f64 {
    #[inline]
    fn hypot01(self, other: f64) -> f64 {
        hypot01(self, other)
    }
    #[inline]
    fn hypot02(self, other: f64) -> f64 {
        hypot02(self, other)
    }
}
