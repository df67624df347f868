// Writes the vectors of `root`, `roots` and `hypot` that the program `test_vectors` is held to: crates/test_vectors/stdin and crates/test_vectors/stdout.
// The README beside this file says what is in them. Nothing here comes from the project's own code.

use std::collections::HashSet;
use std::fmt::Write;

const INFINITY: u64 = 0x7ff0_0000_0000_0000;
const NAN: u64 = 0x7ff8_0000_0000_0000;
const SIGN: u64 = 1 << 63;

// xorshift64, always from the same seed
struct Random(u64);

impl Random {
    fn next(&mut self) -> u64 {
        self.0 ^= self.0 << 13;
        self.0 ^= self.0 >> 7;
        self.0 ^= self.0 << 17;
        self.0
    }

    // a double with that exponent field
    fn with_field(&mut self, field: u64) -> u64 {
        field << 52 | self.next() >> 12
    }
}

// 2^e, from -1074 on
fn power(e: i32) -> f64 {
    f64::from_bits(if e < -1022 { 1 << (e + 1074) } else { ((e + 1023) as u64) << 52 })
}

// The bits of r, and of every NaN the same. The compiler must not see that the test is one for a NaN, since it then leaves it out and keeps the NaN's own bits.
fn bits_of(r: f64) -> u64 {
    let bits = std::hint::black_box(r.to_bits());
    if bits & !SIGN > INFINITY { NAN } else { bits }
}

// ---- roots

// x, finite and above zero, is n * 2^(2 f) with 2^52 <= n < 2^54.
fn split(x: u64) -> (u128, i64) {
    let (field, fraction) = (x >> 52, x & ((1 << 52) - 1));
    let (mut n, mut e) = if field == 0 { (fraction, -1074) } else { (fraction | 1 << 52, field as i64 - 1075) };
    while n < 1 << 52 {
        n *= 2;
        e -= 1;
    }
    if e % 2 != 0 {
        n *= 2;
        e -= 1;
    }
    (n as u128, e / 2)
}

// By whole numbers alone: r is the double nearest to the root of x. With x = n * 2^(2 f) and r = q * 2^g, 2^52 <= q < 2^53, g is f - 26, and n * 2^54 lies strictly
// between the squares of 2 q + 1 and of 2 q - 1, or of 2 q - 1/2 where r is a power of two, since the double below it is only half as far away.
fn is_nearest(x: u64, r: u64) -> bool {
    let (n, f) = split(x);
    let q = (r & ((1 << 52) - 1) | 1 << 52) as u128;
    let g = (r >> 52) as i64 - 1075;
    let below = if q == 1 << 52 { 4 * q - 1 } else { 4 * q - 2 };
    let above = 4 * q + 2;
    let d = n << 56;
    r >> 52 != 0 && r < INFINITY && g == f - 26 && below * below < d && d < above * above
}

fn root(x: u64) -> u64 {
    let bits = bits_of(f64::from_bits(x).sqrt());
    let expected = if x & !SIGN == 0 || x == INFINITY {
        bits == x
    } else if x > INFINITY {
        bits == NAN
    } else {
        is_nearest(x, bits)
    };
    assert!(expected, "root of {x:016x}: {bits:016x}");
    // the whole numbers refuse both neighbours
    if bits != NAN && x != bits && x < INFINITY {
        assert!(!is_nearest(x, bits - 1) && !is_nearest(x, bits + 1));
    }
    bits
}

// The roots of c modulo 2^54, for c of the form 8 k + 1: t with t * t - c divisible by 2^54.
fn roots_modulo(c: i128) -> Vec<u128> {
    let mut t: i128 = 1;
    for bits in 3..=54 {
        if (t * t - c) % (1 << bits) != 0 {
            t += 1 << (bits - 2);
        }
    }
    let whole = 1i128 << 54;
    [t, -t, t + whole / 2, whole / 2 - t].iter().map(|t| t.rem_euclid(whole) as u128).collect()
}

// Numbers whose root is nearly halfway between two doubles: n * 2^54 misses the square of an odd t of 54 digits by a small c.
fn hard() -> Vec<u64> {
    let mut found = vec![];
    for k in -12..12 {
        let c: i128 = 8 * k + 1;
        for t in roots_modulo(c) {
            let n = ((t * t) as i128 - c) >> 54;
            if t >> 53 != 1 || n < 1 << 52 {
                continue;
            }
            // n itself with an even exponent, or n / 2 with an odd one
            if n < 1 << 53 {
                found.push((1075 << 52) + (n as u64 - (1 << 52)));
                found.push((3 << 52) + (n as u64 - (1 << 52)));
            } else if n % 2 == 0 {
                found.push((1076 << 52) + (n as u64 / 2 - (1 << 52)));
                found.push((2046 << 52) + (n as u64 / 2 - (1 << 52)));
            }
        }
    }
    found
}

fn root_cases(random: &mut Random) -> Vec<(&'static str, Vec<u64>)> {
    let special = vec![0, SIGN, INFINITY, INFINITY | SIGN, NAN, SIGN | 1, SIGN | 0x3ff << 52, SIGN | INFINITY - 1];
    let mut ends = vec![];
    for edge in [1u64, 1 << 52, INFINITY - 1, 1023 << 52, 1024 << 52, 1022 << 52] {
        for step in 0..4 {
            ends.push(edge.saturating_sub(step).max(1));
            ends.push((edge + step).min(INFINITY - 1));
        }
    }
    let mut subnormal = vec![];
    for digits in 0..52 {
        subnormal.push(1 << digits);
        subnormal.push((1 << digits) | random.next() & ((1 << digits) - 1));
    }
    let fields = (0..2047).step_by(5).map(|field| random.with_field(field).max(1)).collect();
    let mut squares = vec![];
    for _ in 0..60 {
        let k = (random.next() >> 38) as f64;
        let scale = power(2 * (random.next() % 400) as i32 - 400);
        let x = (k * k * scale).to_bits();
        squares.extend([x - 1, x, x + 1]);
    }
    vec![("zeros, infinities, NaN, negatives", special), ("ends", ends), ("subnormal", subnormal), ("exponents", fields), ("squares and neighbours", squares), ("near midpoints", hard())]
}

// Two roots worked out side by side: those that aren't, and others, each against each.
fn pair_cases() -> Vec<(u64, u64)> {
    let values = [0, SIGN, INFINITY, NAN, SIGN | 0x3ff << 52, 3, 0x400 << 52, INFINITY - 1];
    values.iter().flat_map(|&x| values.iter().map(move |&y| (x, y))).collect()
}

// ---- hypot, by the rule: the greater magnitude is taken out, each step rounds once

fn hypot(x: u64, y: u64) -> u64 {
    let (x, y) = (f64::from_bits(x & !SIGN), f64::from_bits(y & !SIGN));
    let (a, b) = if x < y { (y, x) } else { (x, y) };
    if a == 0.0 {
        return 0;
    }
    let q = b / a;
    let sum = 1.0 + q * q;
    bits_of(a * sum.sqrt())
}

fn hypot_cases(random: &mut Random) -> Vec<(&'static str, Vec<(u64, u64)>)> {
    let values = [
        0,
        SIGN,
        1,
        SIGN | 1,
        (1 << 52) - 1,
        1 << 52,
        0x1ff << 52,
        0x3ff << 52,
        SIGN | 0x3ff << 52,
        (0x3ff << 52) + 1,
        0x408 << 52,
        0x7fe << 52,
        INFINITY - 1,
        SIGN | INFINITY - 1,
        INFINITY,
        SIGN | INFINITY,
        NAN,
    ];
    let table = values.iter().flat_map(|&x| values.iter().map(move |&y| (x, y))).collect();
    let mut triples = vec![];
    for (x, y) in [(3.0f64, 4.0f64), (5.0, 12.0), (8.0, 15.0), (7.0, 24.0), (20.0, 21.0), (12.0, 35.0), (9.0, 40.0), (28.0, 45.0)] {
        for scale in [1.0, power(-1070), power(1000)] {
            triples.extend([((x * scale).to_bits(), (y * scale).to_bits()), ((-y * scale).to_bits(), (x * scale).to_bits())]);
        }
    }
    let mut beside = vec![];
    for apart in 0..60 {
        let field = random.next() % 1900 + 70;
        beside.push((random.with_field(field), random.with_field(field - apart)));
    }
    let mut far = vec![];
    for _ in 0..60 {
        let (a, b) = (random.next() % 1023 + 1024, random.next() % 1024);
        far.push((random.with_field(b) | SIGN, random.with_field(a)));
    }
    let mut over = vec![];
    for _ in 0..20 {
        over.push((random.with_field(2046), random.with_field(2046)));
    }
    vec![
        ("zeros, ends, infinities, NaN against each other", table),
        ("whole triples", triples),
        ("exponents near each other", beside),
        ("the quotient or its square underflows", far),
        ("near overflow", over),
    ]
}

fn show(out: &mut String, bits: u64) {
    if bits == NAN { writeln!(out, "nan") } else { writeln!(out, "{bits:016x}") }.unwrap();
}

fn main() {
    let random = &mut Random(0x9e37_79b9_7f4a_7c15);
    let (mut given, mut wanted) = (String::new(), String::new());
    let mut seen = HashSet::new();
    let (mut roots, mut hypots) = (0, 0);
    for (name, cases) in root_cases(random) {
        let before = roots;
        for x in cases.into_iter().filter(|&x| seen.insert((x, 0))) {
            writeln!(given, "{x:016x}").unwrap();
            show(&mut wanted, root(x));
            roots += 1;
        }
        println!("root, {name}: {}", roots - before);
    }
    seen.clear();
    for (name, cases) in hypot_cases(random) {
        let before = hypots;
        for (x, y) in cases.into_iter().filter(|&case| seen.insert(case)) {
            writeln!(given, "{x:016x} {y:016x}").unwrap();
            show(&mut wanted, hypot(x, y));
            hypots += 1;
        }
        println!("hypot, {name}: {}", hypots - before);
    }
    let pairs = pair_cases();
    for &(x, y) in &pairs {
        writeln!(given, "{x:016x}<{y:016x}\n{x:016x}>{y:016x}").unwrap();
        show(&mut wanted, root(x));
        show(&mut wanted, root(y));
    }
    println!("{roots} roots, {hypots} hypots, {} pairs of roots, {} bytes", pairs.len(), given.len());
    assert!(given.len() <= 65536, "more than the program reads");
    std::fs::write("crates/test_vectors/stdin", given).unwrap();
    std::fs::write("crates/test_vectors/stdout", wanted).unwrap();
}
