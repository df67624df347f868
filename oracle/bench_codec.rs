//! The codec's own path from a tile's samples to its coefficients: the covariance of the bands, its vectors, and the samples less their means along
//! each vector. Document 000 has no covariance: its column has a plain one in Rust. LAPACK's has the float way, dsyrk and dsyev. The last step is no
//! call of either: it is the same plain Rust in all.

use super::covariances::{covariance, floats};
use super::lapack::{dsyrk, lapack};
use super::*;
use oracle::plain::platform;

const COUNT: usize = 4096;
/// So many samples at a time, so that those of all bands stay in the nearer caches.
const CHUNK: usize = 64;

/// Samples of 12 bits: four sources mixed into all bands, and noise.
fn tile(n: usize, rng: &mut Random) -> Vec<i16> {
    let sources: Vec<f64> = (0..4 * COUNT).map(|_| rng.unit()).collect();
    let mut samples = Vec::with_capacity(n * COUNT);
    for _ in 0..n {
        let mix = [0; 4].map(|_| rng.unit());
        samples.extend((0..COUNT).map(|s| ((0..4).map(|k| mix[k] * sources[4 * s + k]).sum::<f64>() * 500.0 + rng.unit() * 8.0) as i16));
    }
    samples
}

/// The covariance as a Rust programmer writes it, in whole numbers.
fn plain(n: usize, samples: &[i16], matrix: &mut [f64]) {
    let band = |b: usize| &samples[b * COUNT..(b + 1) * COUNT];
    let sums: Vec<i64> = (0..n).map(|b| band(b).iter().map(|&s| s as i64).sum()).collect();
    for x in 0..n {
        for y in x..n {
            let products: i64 = band(x).iter().zip(band(y)).map(|(&p, &q)| p as i64 * q as i64).sum();
            let entry = (COUNT as i64 * products - sums[x] * sums[y]) as f64;
            matrix[x * n + y] = entry;
            matrix[y * n + x] = entry;
        }
    }
}

/// Component c of a sample is the sum over the bands b of `vector(b, c)` times the sample less the band's mean.
fn apply(n: usize, samples: &[i16], vector: impl Fn(usize, usize) -> f64, out: &mut [f64]) {
    let means: Vec<f64> = samples.chunks(COUNT).map(|band| band.iter().map(|&s| s as i64).sum::<i64>() as f64 / COUNT as f64).collect();
    let mut centred = vec![[0.0; CHUNK]; n];
    for from in (0..COUNT).step_by(CHUNK) {
        for b in 0..n {
            centred[b] = std::array::from_fn(|k| samples[b * COUNT + from + k] as f64 - means[b]);
        }
        for c in 0..n {
            let mut sums = [0.0; CHUNK];
            for b in 0..n {
                let v = vector(b, c);
                sums.iter_mut().zip(&centred[b]).for_each(|(sum, x)| *sum += v * x);
            }
            out[c * COUNT + from..][..CHUNK].copy_from_slice(&sums);
        }
    }
}

/// The energy of each component is its value, up to rounding: what was applied are the vectors of the covariance.
fn checked(values: &[f64], out: &[f64]) {
    let most = values.iter().fold(0.0, |a: f64, &b| a.max(b));
    for (value, component) in values.iter().zip(out.chunks(COUNT)) {
        let energy = component.iter().map(|x| x * x).sum::<f64>() * COUNT as f64;
        assert!((energy - value).abs() <= 1e-9 * most, "{energy} for {value}");
    }
}

struct Ours {
    matrix: Vec<f64>,
    work: Vec<f64>,
    result: Vec<f64>,
    out: Vec<f64>,
}

impl Ours {
    fn new(n: usize) -> Ours {
        Ours { matrix: vec![0.0; n * n], work: vec![0.0; n], result: vec![0.0; n + n * n], out: vec![0.0; n * COUNT] }
    }
    fn covariance(&mut self, n: usize, samples: &[i16]) {
        assert_eq!(covariance(n, COUNT, samples, &mut self.matrix).answer, 0);
    }
    fn eigen(&mut self, n: usize, edition: usize) {
        assert_eq!(eigen(n, edition, &self.matrix, &mut self.work, &mut self.result).answer, 0);
    }
    fn apply(&mut self, n: usize, samples: &[i16]) {
        apply(n, samples, |b, c| self.result[n + b * n + c], &mut self.out);
        black_box(&self.out);
    }
    fn path(&mut self, n: usize, edition: usize, samples: &[i16]) {
        self.covariance(n, samples);
        self.eigen(n, edition);
        self.apply(n, samples);
    }
}

/// The result's cells as the scope lays them out.
fn document(n: usize, samples: &[i16], matrix: &mut [f64], out: &mut [f64]) -> Vec<f64> {
    plain(n, samples, matrix);
    let result = platform::eigen_cells(n, matrix);
    apply(n, samples, |b, c| result[n + b * n + c], out);
    result
}

/// The float way. LAPACK's vectors are columns of a matrix that stands column by column.
struct Floats {
    call: Option<(lapack::Dsyrk, lapack::Lapack)>,
    planes: Vec<f64>,
    matrix: Vec<f64>,
    vectors: Vec<f64>,
    values: Vec<f64>,
    space: Vec<f64>,
    out: Vec<f64>,
}

impl Floats {
    fn new(n: usize) -> Floats {
        let [matrix, vectors] = [0; 2].map(|_| vec![0.0; n * n]);
        let [planes, out] = [0; 2].map(|_| vec![0.0; n * COUNT]);
        Floats { call: dsyrk().zip(lapack()), planes, matrix, vectors, values: vec![0.0; n], space: vec![0.0; 64 * n + 64], out }
    }
    fn path(&mut self, n: usize, samples: &[i16]) {
        let Some((dsyrk, lapack)) = &self.call else { return };
        floats(n, COUNT, samples, &mut self.planes, &mut self.matrix, *dsyrk);
        lapack.eigen(n, &self.matrix, &mut self.vectors, &mut self.values, &mut self.space);
        apply(n, samples, |b, c| self.vectors[c * n + b], &mut self.out);
        black_box(&self.out);
    }
}

/// Each path run once, and held to its own values.
fn check(n: usize, samples: &[i16], ours: &mut [Ours; 2], floats: &mut Floats, matrix: &mut [f64], out: &mut [f64]) {
    checked(&document(n, samples, matrix, out)[..n], out);
    for (o, edition) in ours.iter_mut().zip(1..) {
        o.path(n, edition, samples);
        assert!(o.matrix == matrix);
        checked(&o.result[..n], &o.out);
    }
    floats.path(n, samples);
    if floats.call.is_some() {
        checked(&floats.values, &floats.out);
    }
}

fn row(n: usize, samples: &[i16]) {
    let (mut ours, mut parts, mut floats) = ([Ours::new(n), Ours::new(n)], [Ours::new(n), Ours::new(n), Ours::new(n)], Floats::new(n));
    let (mut matrix, mut out) = (vec![0.0; n * n], vec![0.0; n * COUNT]);
    check(n, samples, &mut ours, &mut floats, &mut matrix, &mut out);
    parts.iter_mut().for_each(|o| o.path(n, 1, samples));
    let ([one, two], [first, second, third]) = (&mut ours, &mut parts);
    let t = least(&mut [
        &mut || drop(black_box(document(n, samples, &mut matrix, &mut out))),
        &mut || one.path(n, 1, samples),
        &mut || two.path(n, 2, samples),
        &mut || floats.path(n, samples),
        &mut || first.covariance(n, samples),
        &mut || second.eigen(n, 1),
        &mut || third.apply(n, samples),
    ]);
    let beside = if floats.call.is_some() { micros(t[3]) } else { String::new() };
    println!(
        "| the codec's path | 64 by 64 | {n} | {} | {} | {:.2} | {} | {:.2} | {beside} | {} | {} | {} |",
        micros(t[0]), micros(t[1]), t[0] / t[1], micros(t[2]), t[0] / t[2], micros(t[4]), micros(t[5]), micros(t[6])
    );
}

pub fn table(rng: &mut Random) {
    println!("\nThe codec's path, in microseconds: n bands of a tile of {COUNT} samples of 12 bits, their covariance, its vectors, the samples along them. Document 000 has no covariance: its column has a plain one in Rust, in whole numbers. LAPACK's has dsyrk of doubles and dsyev. The samples are taken along the vectors by the same plain Rust in all. The last three columns are the parts of ours, edition 1.\n");
    println!("| what | tile | n | document 000 | ours | ratio | edition 2 | ratio | LAPACK | covariance | eigen | along the vectors |");
    println!("|---|---|---|---|---|---|---|---|---|---|---|---|");
    for n in SIZES {
        row(n, &tile(n, rng));
    }
}
