//! Cases: one call each with its inputs and its outcome, random ones, and their writing (README.md has the format).

use crate::lanczos;
use crate::patched::{self, Answer};
use std::io::Write;

pub const EIGEN: u64 = 1;
pub const SVD: u64 = 2;
pub const SOLVE: u64 = 3;
pub const PSEUDO_INVERSE: u64 = 4;
pub const QR_Q: u64 = 5;
pub const VT_ROW: u64 = 6;
/// 7 is `symmetric_eigen` in steps, which has no cases of its own.
pub const LANCZOS: u64 = 8;

/// One step of Marsaglia's xorshift, the generator and the hash of the list: shifts and xor alone.
pub fn step(x: u64) -> u64 {
    let x = x ^ x << 13;
    let x = x ^ x >> 7;
    x ^ x << 17
}

/// The word of a number: its bits, any NaN being 7ff8000000000000.
pub fn word(x: f64) -> u64 {
    if x.is_nan() { 0x7ff8_0000_0000_0000 } else { x.to_bits() }
}

pub const HASH_START: u64 = 0x9e37_79b9_7f4a_7c15;

pub fn hash(start: u64, cells: &[f64]) -> u64 {
    cells.iter().fold(start, |h, &x| step(h ^ word(x)))
}

/// Where a case's inputs come from: words of the list, or the generator.
#[derive(Clone, Copy, PartialEq)]
pub enum Input {
    Words,
    Made { kind: u64, seed: u64, scale: f64 },
}

/// The `len` numbers that the generator gives.
pub fn made(kind: u64, seed: u64, scale: f64, len: usize) -> Vec<f64> {
    let mut x = seed;
    let mut out = Vec::with_capacity(len);
    for _ in 0..len {
        x = step(x);
        let base = match kind {
            1 => f64::from_bits(0x3ff0_0000_0000_0000 + (x >> 12)) - 1.5,
            2 => f64::from_bits(0x4330_0000_0000_0000 + (x >> 61)) - 4503599627370500.0,
            _ => f64::from_bits(x) - 0.0,
        };
        out.push(base * scale);
    }
    out
}

#[derive(Clone)]
pub struct Case {
    pub function: u64,
    /// `symmetric_eigen`: n, limit, edition. `svd`: m, n, want_u, want_vt, limit. `solve`, `pseudo_inverse`: m, n, has_u,
    /// has_vt, tolerance's bits. `qr_q`: m, k. The row of V^T: m, n, has_u, has_vt, j. `lanczos`: n, k, limit, edition.
    pub parameters: [u64; 5],
    pub input: Input,
    /// The matrix or decomposition.
    pub a: Vec<f64>,
    /// The right side, the start vector.
    pub b: Vec<f64>,
    pub work_len: usize,
    pub result_len: usize,
    /// The word of the first cell of work before the call; the next cells, then result's, count on from it.
    pub old: u64,
}

pub struct Outcome {
    pub answer: Answer,
    pub work: Vec<f64>,
    pub result: Vec<f64>,
}

impl Case {
    pub fn new(function: u64, parameters: &[u64], a: Vec<f64>) -> Case {
        let mut p = [0; 5];
        p[..parameters.len()].copy_from_slice(parameters);
        let mut case =
            Case { function, parameters: p, input: Input::Words, a, b: vec![], work_len: 0, result_len: 0, old: 0x4045_0000_0000_0000 };
        (case.work_len, case.result_len) = case.lengths();
        case
    }

    /// The lengths of work and result that are right for the parameters, capped for sizes that are refused.
    pub fn lengths(&self) -> (usize, usize) {
        let [m, n, ..] = self.parameters.map(|p| p.min(300) as usize);
        let r = m.min(n);
        let p = self.parameters;
        match self.function {
            EIGEN => (m, m + m * m),
            SVD => {
                let u = if p[2] != 0 { m * r } else { 0 };
                let vt = if p[3] != 0 { r * n } else { 0 };
                (m.max(n) * r + r * r + r, r + u + vt)
            }
            SOLVE => (0, n),
            PSEUDO_INVERSE | QR_Q => (0, m * n),
            LANCZOS => (lanczos::work_length(m, n), n + n * m),
            _ => (0, 0),
        }
    }

    /// Work and result as the call finds them.
    pub fn before(&self) -> (Vec<f64>, Vec<f64>) {
        let cell = |i: usize| f64::from_bits(self.old.wrapping_add(i as u64));
        let end = self.work_len + self.result_len;
        ((0..self.work_len).map(cell).collect(), (self.work_len..end).map(cell).collect())
    }

    pub fn outcome(&self) -> Outcome {
        let (mut work, mut result) = self.before();
        let p = self.parameters.map(|p| p as usize);
        let tolerance = f64::from_bits(self.parameters[4]);
        let a = &self.a[..];
        let answer = match self.function {
            EIGEN => patched::symmetric_eigen(p[0], p[1], p[2], a, &mut work, &mut result),
            SVD => patched::svd(p[0], p[1], p[2], p[3], p[4], a, &mut work, &mut result),
            SOLVE => patched::solve(p[0], p[1], p[2], p[3], tolerance, a, &self.b, &mut result),
            PSEUDO_INVERSE => patched::pseudo_inverse(p[0], p[1], p[2], p[3], tolerance, a, &mut result),
            QR_Q => patched::qr_q(p[0], p[1], a, &mut result),
            LANCZOS => lanczos::lanczos(p[0], p[1], p[2], p[3], a, &self.b, &mut work, &mut result),
            _ => {
                let (start, len) = patched::vt_row(p[0], p[1], p[2], p[3], p[4], a);
                result = a[start..start + len].to_vec();
                Answer { answer: len, place: 0, index: 0, count: 0 }
            }
        };
        Outcome { answer, work, result }
    }

    /// Writes the case with its outcome; the result's words follow where they are at most `most`.
    pub fn write(&self, out: &mut impl Write, most: usize) -> std::io::Result<()> {
        let Outcome { answer, work, result } = self.outcome();
        let (kind, seed, scale) = match self.input {
            Input::Words => (0, 0, 0.0),
            Input::Made { kind, seed, scale } => (kind, seed, scale),
        };
        let shown = if result.len() <= most { result.len() } else { 0 };
        let mut words = vec![self.function];
        words.extend(self.parameters);
        words.extend([self.a.len(), self.b.len(), self.work_len, self.result_len].map(|l| l as u64));
        words.extend([self.old, kind, seed, scale.to_bits()]);
        words.extend([answer.answer, answer.place, answer.index, answer.count].map(|l| l as u64));
        words.push(hash(hash(HASH_START, &work), &result));
        words.push(shown as u64);
        if kind == 0 {
            words.extend(self.a.iter().chain(&self.b).map(|x| x.to_bits()));
        }
        words.extend(result[..shown].iter().map(|x| x.to_bits()));
        let bytes: Vec<u8> = words.iter().flat_map(|w| w.to_le_bytes()).collect();
        out.write_all(&bytes)
    }
}

// ---------------------------------------------------------------- random cases

pub struct Random(u64);

impl Random {
    /// The seed goes through splitmix64, so that neighbouring seeds differ in every bit.
    pub fn new(seed: u64) -> Random {
        let z = seed.wrapping_add(0x9e37_79b9_7f4a_7c15);
        let z = (z ^ z >> 30).wrapping_mul(0xbf58_476d_1ce4_e5b9);
        let z = (z ^ z >> 27).wrapping_mul(0x94d0_49bb_1331_11eb);
        Random((z ^ z >> 31) | 1)
    }
    pub fn word(&mut self) -> u64 {
        self.0 = step(self.0);
        self.0.wrapping_mul(0x2545_f491_4f6c_dd1d)
    }
    pub fn below(&mut self, n: u64) -> u64 {
        (self.word() >> 11) % n
    }
    pub fn one_in(&mut self, n: u64) -> bool {
        self.below(n) == 0
    }
    pub fn of<T: Copy>(&mut self, from: &[T]) -> T {
        from[self.below(from.len() as u64) as usize]
    }
    /// Uniform in [-1, 1).
    pub fn unit(&mut self) -> f64 {
        (self.word() >> 11) as f64 / (1u64 << 52) as f64 - 1.0
    }
    /// 2^k for k in the range given, subnormals too.
    pub fn power(&mut self, low: i64, high: i64) -> f64 {
        two(low + self.below((high - low + 1) as u64) as i64)
    }
    fn finite(&mut self) -> f64 {
        loop {
            let x = f64::from_bits(self.word());
            if x.is_finite() {
                return x;
            }
        }
    }
}

/// 2^k, exactly, for k from -1074 to 1023.
pub fn two(k: i64) -> f64 {
    if k >= -1022 { f64::from_bits(((k + 1023) as u64) << 52) } else { f64::from_bits(1 << (k + 1074)) }
}

/// The numbers at which the routines turn.
fn edges() -> [f64; 24] {
    [
        0.0, -0.0, 1.0, -1.0, 2.0, 0.5, 3.0, two(-1074), -two(-1074), two(-1022), two(-1022) - two(-1074), two(-537), two(-520),
        two(-512), two(-266), two(-52), two(-51), 1.0 + two(-52), two(256), two(512), -two(512), two(1022), two(1023), f64::MAX,
    ]
}

/// `rows` by `cols` numbers of one of many kinds, all finite.
pub fn numbers(rng: &mut Random, rows: usize, cols: usize) -> Vec<f64> {
    let len = rows * cols;
    let mut a: Vec<f64> = (0..len).map(|_| rng.unit()).collect();
    match rng.below(22) {
        0..=2 => {}
        3 => a.fill_with(|| rng.below(8) as f64 - 4.0),
        4 => a.fill_with(|| rng.below(3) as f64 - 1.0),
        5 => {
            // A product through k inner columns: often of lower rank, whole numbers or not.
            let k = 1 + rng.below(rows.min(cols) as u64 + 1) as usize;
            let whole = rng.one_in(2);
            let mut draw = || if whole { rng.below(5) as f64 - 2.0 } else { rng.unit() };
            let left: Vec<f64> = (0..rows * k).map(|_| draw()).collect();
            let right: Vec<f64> = (0..k * cols).map(|_| draw()).collect();
            for i in 0..rows {
                for j in 0..cols {
                    a[i * cols + j] = (0..k).map(|x| left[i * k + x] * right[x * cols + j]).sum();
                }
            }
        }
        6 | 7 if rows == cols => {
            // A covariance of more samples than bands, some bands equal to others.
            let samples = rows + 4;
            let mut x: Vec<f64> = (0..samples * rows).map(|_| rng.unit()).collect();
            for j in 1..rows {
                if rng.one_in(6) {
                    for s in 0..samples {
                        x[s * rows + j] = x[s * rows + j - 1];
                    }
                }
            }
            for i in 0..rows {
                for j in 0..rows {
                    a[i * cols + j] = (0..samples).map(|s| x[s * rows + i] * x[s * rows + j]).sum::<f64>() / samples as f64;
                }
            }
        }
        8 => {
            // Diagonal, values often equal.
            let values = [1.0, 2.0, 2.0, -3.0, 0.0, two(-1074), rng.unit()];
            a.fill(0.0);
            for i in 0..rows.min(cols) {
                a[i * cols + i] = rng.of(&values);
            }
        }
        9 => {
            let edges = edges();
            a.fill_with(|| rng.of(&edges));
        }
        10 => a.fill_with(|| f64::from_bits(rng.word() & 0x800f_ffff_ffff_ffff)),
        11 => {
            let scale = rng.power(990, 1023);
            a.iter_mut().for_each(|x| *x *= scale);
        }
        12 => {
            let scale = rng.power(-1074, 1023);
            a.iter_mut().for_each(|x| *x *= scale);
        }
        13 => {
            // Graded: each row smaller or larger than the one before.
            let k = rng.below(61) as i64 - 30;
            for i in 0..rows {
                a[i * cols..][..cols].iter_mut().for_each(|x| *x *= two(k * (i as i64).min(30)));
            }
        }
        14 => a.fill_with(|| rng.finite()),
        15 => {
            let x = rng.of(&[0.0, -0.0, 1.0, two(-1074), two(512), 6.0]);
            a.fill(x);
        }
        16 => {
            // Equal columns, or a column and its multiple.
            for j in 1..cols {
                if rng.one_in(3) {
                    let by = rng.of(&[1.0, -1.0, 2.0, 6.0, 0.1]);
                    for i in 0..rows {
                        a[i * cols + j] = a[i * cols + j - 1] * by;
                    }
                }
            }
        }
        20 => {
            // Numbers so large that a run stays finite, or nearly, and its values don't.
            for i in 0..rows {
                for j in 0..cols {
                    let x = a[i * cols + j];
                    let part = if i != j { 0.45 * x } else if i + 1 == rows { 0.8 + 0.2 * x.abs() } else { 0.25 + 0.24 * x.abs() };
                    a[i * cols + j] = part * f64::MAX;
                }
            }
        }
        21 => {
            // Columns of small whole numbers, and others with the largest numbers among them: sums that overflow, or are NaN.
            let from = [0.0, 1.0, -1.0, 2.0, two(1023), -two(1023), f64::MAX, -f64::MAX];
            for j in 0..cols {
                let some = if rng.one_in(2) { 4 } else { 8 };
                for i in 0..rows {
                    a[i * cols + j] = rng.of(&from[..some]);
                }
            }
        }
        17 => a.fill_with(|| rng.of(&[1.0, -1.0])),
        18 => {
            let scale = if rng.one_in(2) { rng.power(240, 270) } else { rng.power(-280, -250) };
            a.iter_mut().for_each(|x| *x *= scale);
        }
        _ => {
            // Three diagonals.
            for i in 0..rows {
                for j in 0..cols {
                    if i.abs_diff(j) > 1 {
                        a[i * cols + j] = 0.0;
                    }
                }
            }
        }
    }
    if rng.one_in(8) {
        a.iter_mut().for_each(|x| if rng.one_in(4) { *x = if rng.one_in(2) { 0.0 } else { -0.0 } });
    }
    a
}

pub fn spoiled(rng: &mut Random, a: &mut [f64]) {
    let bad = [f64::NAN, -f64::NAN, f64::INFINITY, f64::NEG_INFINITY, f64::from_bits(0x7ff0_0000_0000_0001), f64::from_bits(u64::MAX)];
    for _ in 0..1 + rng.below(3) {
        if !a.is_empty() {
            let at = rng.below(a.len() as u64) as usize;
            a[at] = rng.of(&bad);
        }
    }
}

pub fn size(rng: &mut Random, largest: u64) -> u64 {
    match rng.below(10) {
        0 => rng.below(3),
        1..=6 => rng.below(largest.min(6) + 1),
        _ => rng.below(largest + 1),
    }
}

pub const FAR: [u64; 6] = [257, 258, 512, 1 << 32, 1 << 63, u64::MAX];

pub fn limit(rng: &mut Random) -> u64 {
    if rng.one_in(3) { rng.of(&[0, 1, 2, 3, 4, 5, 59, 60, 61, 1 << 32, u64::MAX]) } else { 60 }
}

pub fn edition(rng: &mut Random) -> u64 {
    if rng.one_in(20) { rng.of(&[0, 3, 1 << 32, u64::MAX]) } else { 1 + rng.below(2) }
}

fn flag(rng: &mut Random, set: u64) -> u64 {
    if rng.one_in(set) { 0 } else { rng.of(&[1, 1, 1, 2, 1 << 32, u64::MAX]) }
}

pub fn damaged(rng: &mut Random, len: usize) -> usize {
    match rng.below(6) {
        0 => 0,
        1 => len + 1,
        2 => len.saturating_sub(1),
        3 => len + 7,
        4 => len / 2,
        _ => len,
    }
}

fn tolerance(rng: &mut Random, values: &[f64]) -> f64 {
    if rng.one_in(8) {
        let nans = [f64::NAN, -f64::NAN, f64::from_bits(0x7ff0_0000_0000_0001), f64::from_bits(u64::MAX)];
        let negative = [-two(-1074), -1.0, -f64::MAX, f64::NEG_INFINITY];
        return if rng.one_in(2) { rng.of(&nans) } else { rng.of(&negative) };
    }
    let one = if values.is_empty() { 1.0 } else { rng.of(values) };
    let edges = [
        0.0, 0.0, 0.0, -0.0, f64::INFINITY, two(-1074), 1e-12, 0.5, one, one, one,
        f64::from_bits(one.to_bits().wrapping_add(1)), f64::from_bits(one.to_bits().wrapping_sub(1)),
    ];
    rng.of(&edges)
}

/// A random case with sizes up to `largest`.
pub fn random(rng: &mut Random, largest: u64) -> Case {
    let function = rng.of(&[EIGEN, EIGEN, EIGEN, SVD, SVD, SVD, SOLVE, SOLVE, PSEUDO_INVERSE, PSEUDO_INVERSE, QR_Q, QR_Q, VT_ROW]);
    let m = size(rng, largest);
    let n = if function != EIGEN && rng.one_in(3) { m } else { size(rng, largest) };
    let (mu, nu) = (m as usize, n as usize);
    let mut case = match function {
        EIGEN => {
            let mut a = numbers(rng, mu, mu);
            if rng.one_in(2) {
                for i in 0..mu {
                    for j in 0..i {
                        a[j * mu + i] = a[i * mu + j];
                    }
                }
            }
            Case::new(function, &[m, limit(rng), edition(rng)], a)
        }
        SVD => {
            let a = numbers(rng, mu, nu);
            Case::new(function, &[m, n, flag(rng, 4), flag(rng, 4), limit(rng)], a)
        }
        QR_Q => Case::new(function, &[m, n], numbers(rng, mu, nu)),
        VT_ROW => {
            let (u, vt) = (flag(rng, 3), flag(rng, 5));
            let svd = Case::new(SVD, &[m, n, u, vt], vec![]);
            let a = (0..svd.result_len).map(|i| i as f64 + 1.0).collect();
            let j = if rng.one_in(5) { rng.of(&[256, 257, 1 << 62, u64::MAX]) } else { rng.below(m.min(n) + 2) };
            Case::new(function, &[m, n, u, vt, j], a)
        }
        _ => {
            let (u, vt) = (flag(rng, 12), flag(rng, 12));
            let (a, values) = given(rng, m, n, u, vt);
            let t = tolerance(rng, &values);
            let mut case = Case::new(function, &[m, n, u, vt, t.to_bits()], a);
            if function == SOLVE {
                case.b = numbers(rng, mu, 1);
            }
            case
        }
    };
    case.old = rng.of(&[0x4045_0000_0000_0000, 0xbff0_0000_0000_0001, 0x0000_0000_0000_0001, 0x7ff0_0000_0000_0001, 0xfff8_0000_0000_0000]);
    if function == VT_ROW {
        case.result_len = 0;
    }
    if rng.one_in(8) {
        spoiled(rng, &mut case.a);
    }
    if rng.one_in(16) {
        spoiled(rng, &mut case.b);
    }
    if rng.one_in(9) {
        let len = damaged(rng, case.a.len());
        case.a.resize(len, 7.0);
    }
    if function != VT_ROW && rng.one_in(9) {
        case.result_len = damaged(rng, case.result_len);
    }
    if (function == EIGEN || function == SVD) && rng.one_in(9) {
        case.work_len = damaged(rng, case.work_len);
    }
    if function == SOLVE && rng.one_in(9) {
        let len = damaged(rng, case.b.len());
        case.b.resize(len, 7.0);
    }
    if rng.one_in(25) {
        case.parameters[0] = rng.of(&FAR);
    }
    if function != EIGEN && rng.one_in(25) {
        case.parameters[1] = rng.of(&FAR);
    }
    case
}

/// A decomposition as `svd` gives it, or any numbers in its place, and its values.
fn given(rng: &mut Random, m: u64, n: u64, u: u64, vt: u64) -> (Vec<f64>, Vec<f64>) {
    let r = m.min(n) as usize;
    let from = numbers(rng, m as usize, n as usize);
    let svd = Case::new(SVD, &[m, n, u, vt, 60], from);
    let done = svd.outcome();
    let mut a = done.result;
    if done.answer.answer != 0 || rng.one_in(5) {
        a = numbers(rng, svd.result_len, 1);
    }
    let values = a[..r].to_vec();
    (a, values)
}
