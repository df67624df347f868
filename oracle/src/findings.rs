//! Runs the inputs of docs/FINDINGS.md through the patched functions and through document 000 itself, and writes what
//! comes back: the four numbers, the values, how far the factors are from orthonormal.

use crate::cases::*;
use crate::plain::platform;
use crate::special;
use std::sync::mpsc::channel;
use std::thread;
use std::time::Duration;

/// The largest distance of a product of two columns from the identity's cell. Columns have `len` numbers.
fn off(columns: usize, len: usize, cell: impl Fn(usize, usize) -> f64) -> f64 {
    let mut worst: f64 = 0.0;
    for p in 0..columns {
        for q in 0..columns {
            let product: f64 = (0..len).map(|i| cell(i, p) * cell(i, q)).sum();
            let miss = (product - (p == q) as u8 as f64).abs();
            worst = if miss > worst || miss.is_nan() { miss } else { worst };
        }
    }
    worst
}

fn shown(case: &Case, cells: &[f64]) -> String {
    let [m, n, ..] = case.parameters.map(|p| p as usize);
    let head = |len: usize| cells[..len.min(6)].iter().map(|x| format!("{x:e}")).collect::<Vec<_>>().join(" ");
    match case.function {
        EIGEN => format!("values {}; vectors off by {:.1e}", head(m), off(m, m, |i, j| cells[m + i * m + j])),
        SVD => {
            let r = m.min(n);
            let (u, vt) = cells[r..].split_at(m * r);
            let (u, v) = (off(r, m, |i, j| u[i * r + j]), off(r, n, |i, j| vt[j * n + i]));
            format!("values {}; U off by {u:.1e}, V by {v:.1e}", head(r))
        }
        _ => head(cells.len()),
    }
}

/// What document 000 gives, or that it panics, or that it is still running after a second.
fn document(case: &Case) -> String {
    let (tell, hear) = channel();
    let given = case.clone();
    thread::spawn(move || {
        let p = given.parameters.map(|p| p as usize);
        let done = match given.function {
            EIGEN => platform::eigen_cells(p[0], &given.a),
            SVD => platform::svd_cells(p[0], p[1], true, true, &given.a),
            _ => platform::qr_q_cells(p[0], p[1], &given.a),
        };
        let _ = tell.send(done);
    });
    match hear.recv_timeout(Duration::from_secs(1)) {
        Ok(cells) => shown(case, &cells),
        Err(std::sync::mpsc::RecvTimeoutError::Timeout) => "no end in a second".to_string(),
        Err(_) => "panics".to_string(),
    }
}

/// How often a random matrix of a kind is refused by `svd`, or comes back with a U that is not orthonormal.
fn survey(what: &str, mut draw: impl FnMut(&mut Random) -> (usize, Vec<f64>)) {
    let mut rng = Random::new(1);
    let mut answers = [0; 11];
    let mut eigen = [0; 11];
    let mut crooked = 0;
    for _ in 0..200 {
        let (n, a) = draw(&mut rng);
        let size = n as u64;
        let done = Case::new(SVD, &[size, size, 1, 1, 60], a.clone()).outcome();
        answers[done.answer.answer] += 1;
        crooked += (done.answer.answer == 0 && off(n, n, |i, j| done.result[n + i * n + j]) > 1e-8) as usize;
        eigen[Case::new(EIGEN, &[size, 60, 1], a).outcome().answer.answer] += 1;
    }
    println!("{what}: svd by answer 0 to 10 {answers:?}, answer 0 with U off by more than 1e-8 {crooked}, symmetric_eigen {eigen:?}");
}

fn surveys() {
    for k in [-600, -400, -280, -270, -268, -266, -264, -262, 0, 250, 255, 256, 257, 300, 511, 512] {
        survey(&format!("200 random 4 by 4 with entries up to 2^{k}"), |rng| (4, (0..16).map(|_| rng.unit() * two(k)).collect()));
    }
    for n in 2..=12 {
        survey(&format!("200 random covariances of {n} bands, two of them equal"), |rng| {
            let samples = 4 * n;
            let mut x: Vec<f64> = (0..samples * n).map(|_| rng.unit()).collect();
            let p = rng.below(n as u64) as usize;
            let q = (p + 1 + rng.below(n as u64 - 1) as usize) % n;
            for s in 0..samples {
                x[s * n + q] = x[s * n + p];
            }
            let cell = |at: usize| (0..samples).map(|s| x[s * n + at / n] * x[s * n + at % n]).sum::<f64>() / samples as f64;
            (n, (0..n * n).map(cell).collect())
        });
    }
    let (mut all, mut refused) = (0, 0);
    for at in 0..8 * 8 * 8 * 8 {
        let [a, b, c, d] = [at / 512, at / 64 % 8, at / 8 % 8, at % 8];
        if a * d == b * c {
            let given = [a, b, c, d].map(|x| x as f64).to_vec();
            all += 1;
            refused += (Case::new(SVD, &[2, 2, 1, 1, 60], given).outcome().answer.answer == 9) as usize;
        }
    }
    println!("of {all} singular 2 by 2 matrices of 0 to 7, svd refuses {refused} with 9");
}

/// Finding 10: a random matrix scaled by a power of two has the scaled values, but where its numbers are small. How many of 200
/// answer 0 with a value that is off by more than 1e-10 of the largest.
fn scaled() {
    for n in [1, 2, 3, 8, 20] {
        let mut rng = Random::new(1);
        let powers = [-510, -515, -518, -520, -522, -525, -600];
        let mut off = powers.map(|_| 0);
        for _ in 0..200 {
            let a: Vec<f64> = (0..n * n).map(|_| rng.unit()).collect();
            let values = |a: Vec<f64>| {
                let done = Case::new(EIGEN, &[n as u64, 60, 1], a).outcome();
                (done.answer.answer == 0).then(|| done.result[..n].to_vec())
            };
            let plain = values(a.clone()).expect("ordinary numbers");
            let largest = plain.iter().fold(0.0, |x: f64, y| x.max(y.abs()));
            for (count, k) in off.iter_mut().zip(powers) {
                let Some(small) = values(a.iter().map(|x| x * two(k)).collect()) else { continue };
                let back = small.iter().map(|x| x / two(k));
                *count += back.zip(&plain).any(|(x, y)| (x - y).abs() > 1e-10 * largest) as usize;
            }
        }
        let told: Vec<String> = off.iter().zip(powers).map(|(count, k)| format!("2^{k} {count}")).collect();
        println!("200 random {n} by {n} scaled down, answer 0 with a value off by more than 1e-10: {}", told.join(", "));
    }
}

/// Finding 10 at the other end: how many of the same matrices scaled up are refused, by answer 8 and 10, and at which marks.
fn scaled_up() {
    for n in [3, 8, 20] {
        for k in [510, 512, 514, 518, 600, 1000] {
            let mut rng = Random::new(1);
            let (mut eights, mut tens) = ([0; 3], [0; 3]);
            for _ in 0..200 {
                let a: Vec<f64> = (0..n * n).map(|_| rng.unit() * two(k)).collect();
                let told = Case::new(EIGEN, &[n as u64, 60, 1], a).outcome().answer;
                match told.answer {
                    8 => eights[told.place] += 1,
                    10 => tens[told.place] += 1,
                    _ => {}
                }
            }
            println!("200 random {n} by {n} with entries up to 2^{k}: 8 by place {eights:?}, 10 by place {tens:?}");
        }
    }
}

pub fn print() {
    std::panic::set_hook(Box::new(|_| {}));
    let names = ["", "symmetric_eigen", "svd", "", "", "qr_q"];
    for case in special::findings() {
        let done = case.outcome();
        let a = done.answer;
        println!("{} {:?} {:?}", names[case.function as usize], &case.parameters[..2], case.a);
        let cells = if a.answer == 0 { shown(&case, &done.result) } else { String::new() };
        println!("    patched: {} {} {} {} {cells}", a.answer, a.place, a.index, a.count);
        println!("    document 000: {}", document(&case));
    }
    surveys();
    drop(std::panic::take_hook()); // document 000's panics are told above; from here on one is ours, and shows
    scaled();
    scaled_up();
}
