//! The five calls beside document 000's, symmetric_eigen in both editions, and LAPACK.

use super::lapack::{Lapack, about, lapack};
use super::*;
use oracle::plain::platform;

/// Least times in microseconds.
struct Times {
    document: f64,
    ours: f64,
    edition_2: Option<f64>,
    lapack: Option<[f64; 2]>,
}

fn row(what: &str, kind: usize, n: usize, t: &Times) {
    let second = t.edition_2.map_or(" | ".into(), |time| format!("{} | {:.2}", micros(time), t.document / time));
    let beside = t.lapack.map_or(" | ".into(), |[one, two]| format!("{} | {}", micros(one), micros(two)));
    let (document, ours, ratio) = (micros(t.document), micros(t.ours), t.document / t.ours);
    println!("| `{what}` | {} | {n} | {document} | {ours} | {ratio:.2} | {second} | {beside} |", KINDS[kind]);
}

fn eigen_times(n: usize, a: &[f64], lapack: &Option<Lapack>) -> Times {
    let (mut work, mut result) = (vec![0.0; n], vec![0.0; n + n * n]);
    let (mut work2, mut result2) = (work.clone(), result.clone());
    assert_eq!(eigen(n, 1, a, &mut work, &mut result).answer, 0);
    assert_eq!(eigen(n, 2, a, &mut work2, &mut result2).answer, 0);
    let (mut b, mut w, mut space) = (vec![0.0; n * n], vec![0.0; n], vec![0.0; 64 * n + 64]);
    let (mut c, mut z, mut room, mut whole) = (vec![0.0; n * n], vec![0.0; n], vec![0.0; 1 + 6 * n + 2 * n * n], vec![0; 3 + 5 * n]);
    let t = least(&mut [
        &mut platform::eigen_call(n, a),
        &mut || drop(black_box(eigen(n, 1, a, &mut work, &mut result))),
        &mut || drop(black_box(eigen(n, 2, a, &mut work2, &mut result2))),
        &mut || lapack.iter().for_each(|l| l.eigen(n, a, &mut b, &mut w, &mut space)),
        &mut || lapack.iter().for_each(|l| l.divide(n, a, &mut c, &mut z, &mut room, &mut whole)),
    ]);
    Times { document: t[0], ours: t[1], edition_2: Some(t[2]), lapack: lapack.as_ref().map(|_| [t[3], t[4]]) }
}

fn svd_times(n: usize, a: &[f64], lapack: &Option<Lapack>) -> Times {
    let (mut work, mut result) = (vec![0.0; 2 * n * n + n], vec![0.0; n + 2 * n * n]);
    let done = svd(n, a, &mut work, &mut result);
    assert!(done.answer == 0, "answer {} place {} index {} count {}", done.answer, done.place, done.index, done.count);
    let (mut b, mut s, mut space) = (vec![0.0; n * n], vec![0.0; n], vec![0.0; 64 * n + 64]);
    let (mut u, mut vt) = (vec![0.0; n * n], vec![0.0; n * n]);
    let (mut c, mut z, mut v, mut room) = (vec![0.0; n * n], vec![0.0; n], vec![0.0; n * n], vec![0.0; 2 * n + 6]);
    let t = least(&mut [
        &mut platform::svd_call(n, n, a),
        &mut || drop(black_box(svd(n, a, &mut work, &mut result))),
        &mut || lapack.iter().for_each(|l| l.svd(n, a, &mut b, &mut s, &mut u, &mut vt, &mut space)),
        &mut || lapack.iter().for_each(|l| l.jacobi(n, a, &mut c, &mut z, &mut v, &mut room)),
    ]);
    Times { document: t[0], ours: t[1], edition_2: None, lapack: lapack.as_ref().map(|_| [t[2], t[3]]) }
}

fn plain_times(document: &mut dyn FnMut(), ours: &mut dyn FnMut()) -> Times {
    let t = least(&mut [document, ours]);
    Times { document: t[0], ours: t[1], edition_2: None, lapack: None }
}

/// solve, pseudo_inverse and qr_q of one matrix.
fn rest(n: usize, a: &[f64], right: &[f64]) {
    let (mut work, mut given) = (vec![0.0; 2 * n * n + n], vec![0.0; n + 2 * n * n]);
    assert_eq!(svd(n, a, &mut work, &mut given).answer, 0);
    let (mut short, mut answer) = (vec![0.0; n], vec![0.0; n * n]);
    let t = plain_times(&mut platform::solve_call(n, n, 0.0, &given, right), &mut || drop(black_box(solve(n, &given, right, &mut short))));
    row("solve", 0, n, &t);
    let t = plain_times(&mut platform::pseudo_inverse_call(n, n, 0.0, &given), &mut || drop(black_box(pseudo_inverse(n, &given, &mut answer))));
    row("pseudo_inverse", 0, n, &t);
    let t = plain_times(&mut platform::qr_q_call(n, n, a), &mut || drop(black_box(qr_q(n, a, &mut answer))));
    row("qr_q", 0, n, &t);
}

fn machine() -> String {
    let about = std::fs::read_to_string("/proc/cpuinfo").unwrap_or_default();
    let said = |name: &str| about.lines().find(|l| l.starts_with(name)).and_then(|l| l.split(": ").nth(1));
    // Arm's processors say numbers in place of a name.
    let model = said("model name").map(str::to_string).or_else(|| Some(format!("implementer {}, part {}", said("CPU implementer")?, said("CPU part")?)));
    format!("{} ({})", std::env::consts::ARCH, model.unwrap_or("unknown".into()))
}

pub fn table(rng: &mut Random) {
    let lapack = lapack();
    println!("Machine: {}. {}", machine(), about(&lapack));
    println!("The least processor time of one call in microseconds; a ratio is document 000's time over ours. The last two columns are LAPACK's: dsyev and dsyevd, dgesvd and dgesvj.\n");
    println!("| routine | input | n | document 000 | ours | ratio | edition 2 | ratio | dsyev, dgesvd | dsyevd, dgesvj |");
    println!("|---|---|---|---|---|---|---|---|---|---|");
    for (what, times) in [("symmetric_eigen", eigen_times as fn(usize, &[f64], &Option<Lapack>) -> Times), ("svd", svd_times)] {
        for n in SIZES {
            for kind in 0..3 {
                row(what, kind, n, &times(n, &input(kind, n, rng), &lapack));
            }
        }
    }
    for n in SIZES {
        let a = input(0, n, rng);
        rest(n, &a, &(0..n).map(|_| rng.unit()).collect::<Vec<f64>>());
    }
}
