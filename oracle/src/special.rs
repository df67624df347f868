//! The cases of the committed list that are chosen by hand: the scope's worked numbers, every refusal and pairs of them in
//! The scope's order, both classes of a number that goes bad, the findings' inputs, large sizes.

use crate::cases::*;

const NAN: f64 = f64::NAN;
const INF: f64 = f64::INFINITY;

fn eigen(n: u64, limit: u64, a: &[f64]) -> Case {
    Case::new(EIGEN, &[n, limit, 1], a.to_vec())
}

fn svd(m: u64, n: u64, limit: u64, a: &[f64]) -> Case {
    Case::new(SVD, &[m, n, 1, 1, limit], a.to_vec())
}

fn solve(m: u64, n: u64, tolerance: f64, a: &[f64], b: &[f64]) -> Case {
    let mut case = Case::new(SOLVE, &[m, n, 1, 1, tolerance.to_bits()], a.to_vec());
    case.b = b.to_vec();
    case
}

fn pseudo_inverse(m: u64, n: u64, tolerance: f64, a: &[f64]) -> Case {
    Case::new(PSEUDO_INVERSE, &[m, n, 1, 1, tolerance.to_bits()], a.to_vec())
}

fn qr_q(m: u64, k: u64, a: &[f64]) -> Case {
    Case::new(QR_Q, &[m, k], a.to_vec())
}

fn vt_row(m: u64, n: u64, u: u64, vt: u64, j: u64, len: usize) -> Case {
    Case::new(VT_ROW, &[m, n, u, vt, j], (0..len).map(|i| i as f64 + 1.0).collect())
}

/// A case whose inputs the generator makes, `len` of a and `right` of b.
fn large(mut case: Case, kind: u64, seed: u64, scale: f64, len: usize, right: usize) -> Case {
    let mut all = made(kind, seed, scale, len + right);
    case.b = all.split_off(len);
    case.a = all;
    case.input = Input::Made { kind, seed, scale };
    case
}

const SWAPPED: [f64; 10] = [4.0, 2.0, 0.0, 1.0, 1.0, 0.0, 0.0, 1.0, 1.0, 0.0];

/// The scope's worked numbers that are calls.
pub fn worked() -> Vec<Case> {
    let big = two(1023);
    vec![
        eigen(0, 60, &[]),
        eigen(1, 60, &[-0.0]),
        eigen(2, 60, &[2.0, 0.0, 0.0, 1.0]),
        eigen(2, 60, &[1.0, NAN, 0.0, 2.0]),
        eigen(2, 60, &[1.0, 0.0, NAN, 2.0]),
        eigen(3, 60, &[0.0, 0.0, 0.0, 0.0, 0.0, 0.0, big, big, 0.0]),
        svd(2, 2, 60, &[2.0, 0.0, 0.0, 4.0]),
        svd(2, 2, 60, &[1.0, two(-520), 0.0, 0.0]),
        svd(2, 2, 59, &[1.0, two(-520), 0.0, 0.0]),
        pseudo_inverse(2, 2, 0.0, &SWAPPED),
        pseudo_inverse(2, 2, 2.0, &SWAPPED),
        pseudo_inverse(2, 2, NAN, &SWAPPED),
        solve(2, 2, 0.0, &SWAPPED, &[2.0, 4.0]),
        solve(2, 2, -0.0, &SWAPPED, &[4.0, 4.0]),
        solve(2, 2, NAN, &SWAPPED, &[4.0, 4.0]),
        solve(0, 2, 0.0, &[], &[]),
        qr_q(1, 1, &[two(-52)]),
        qr_q(1, 1, &[two(-51)]),
        eigen(257, 0, &[]),
        eigen(256, 0, &[]),
        eigen(256, 61, &[]),
        large(eigen(256, 60, &[]), 1, 1, 1.0, 65536, 0),
    ]
}

/// The inputs of docs/FINDINGS.md and docs/DIFFERENCES.md, with neighbours of theirs.
pub fn findings() -> Vec<Case> {
    let max = f64::MAX;
    let tiny = two(-1074);
    let small = two(-600);
    let steps = |x: f64| [x, x, 0.0, x];
    let equal_bands = [1.0, 1.0, 1.0, 1.0, 2.0, 1.0, 1.0, 1.0, 1.0];
    let equal_bands_settled = [2.0, 2.0, 1.0, 2.0, 2.0, 1.0, 1.0, 1.0, 3.0];
    let near_largest = [f64::from_bits(0x7fef_ffff_ffff_fffe), f64::from_bits(0xffe8_0000_0000_0001)];
    vec![
        // Singular matrices.
        svd(2, 2, 60, &[0.0, 0.0, 1.0, 6.0]),
        svd(2, 2, 60, &[1.0, 6.0, 0.0, 0.0]),
        svd(7, 3, 60, &[1.0; 21]),
        svd(3, 7, 60, &[1.0; 21]),
        svd(5, 3, 60, &[1.0; 15]),
        svd(3, 3, 60, &equal_bands),
        eigen(3, 60, &equal_bands),
        svd(3, 3, 60, &equal_bands_settled),
        eigen(3, 60, &equal_bands_settled),
        // Large and small numbers in svd.
        svd(2, 2, 60, &steps(two(255))),
        svd(2, 2, 60, &steps(two(256))),
        svd(2, 2, 60, &steps(two(511))),
        svd(2, 2, 60, &steps(two(512))),
        svd(1, 1, 60, &[two(512)]),
        svd(2, 2, 60, &steps(two(-268))),
        svd(2, 2, 60, &steps(two(-269))),
        svd(2, 2, 60, &steps(two(-538))),
        svd(2, 2, 60, &steps(two(-600))),
        // Columns of norm 0.
        svd(2, 2, 60, &[0.0, 0.0, 0.0, tiny]),
        svd(1, 1, 60, &[-0.0]),
        svd(1, 2, 60, &[-0.0, -0.0]),
        // Large numbers in symmetric_eigen.
        eigen(2, 60, &[two(1022), max, max, 0.0]),
        eigen(2, 60, &[two(1021), two(1022), two(1022), 15.0 * two(1020)]),
        eigen(2, 60, &[3.0 * two(1021), 7.0 * two(1020), 7.0 * two(1020), 15.0 * two(1020)]),
        // Subnormal ones.
        eigen(1, 60, &[tiny]),
        eigen(2, 60, &[tiny, tiny, tiny, tiny]),
        eigen(2, 60, &[0.0, tiny, tiny, 0.0]),
        eigen(3, 60, &[0.0, tiny, tiny, tiny, 0.0, tiny, tiny, tiny, 0.0]),
        eigen(3, 60, &[0.0, 0.0, 1.0, 0.0, 1.0, 1.0, 1.0, 1.0, 0.0]),
        eigen(3, 60, &[0.0, 0.0, small, 0.0, small, small, small, small, 0.0]),
        // Where document 000 panics, and where it does not end.
        eigen(2, 60, &[0.0, two(-512), two(-512), two(512)]),
        eigen(2, 60, &[0.0, tiny, tiny, 1.0]),
        eigen(2, 60, &[0.0, two(-1022), two(-1022), 1.0]),
        eigen(2, 60, &[0.0, 3.0 * two(1022), 3.0 * two(1022), 0.0]),
        eigen(2, 60, &[two(1023), 1.0, 1.0, 0.0]),
        // Norms that are not finite.
        qr_q(1, 1, &[two(511)]),
        qr_q(1, 1, &[two(512)]),
        qr_q(2, 2, &[1.0, max, 1.0, max]),
        qr_q(2, 2, &[3.0, near_largest[0], 4.0, near_largest[1]]),
        qr_q(2, 2, &[1.0, two(512), 0.0, 1.0]),
        qr_q(1, 2, &[two(-51), two(1023)]),
        // More columns than rows.
        qr_q(1, 2, &[3.0, 1.0]),
        qr_q(2, 3, &[1.0, 2.0, 3.0, 1.0, 3.0, 1.0]),
        qr_q(2, 3, &[1.0, 2.0, 3.0 * two(80), 1.0, 3.0, two(80)]),
        qr_q(2, 3, &[1.0, 2.0, 3.0 * two(120), 1.0, 3.0, two(120)]),
    ]
}

/// Small inputs for each mark and class that can be met there (docs/FINDINGS.md, 11), by where the number stands. Where more numbers
/// than one are bad, some have the other class behind the first.
pub fn marks() -> Vec<Case> {
    let (max, big, half, quarter) = (f64::MAX, two(1023), two(1022), two(1021));
    let (tiny, small, large) = (two(-1074), two(-512), two(600));
    vec![
        // symmetric_eigen, mark 0: 8 in d, first or not, and 10, at the last with an infinity behind it.
        eigen(3, 60, &[big, 0.0, 0.0, 0.0, -big, 0.0, -1.0, 0.0, -1.0]),
        eigen(4, 60, &[1.0, 0.0, 0.0, 0.0, 1.0, -big, 0.0, 0.0, big, 0.0, big, 0.0, 1.0, big, 0.0, 0.0]),
        eigen(2, 60, &[big, 0.0, 1.0, 0.0]),
        eigen(3, 60, &[big, 0.0, 0.0, 1.0, -big, 0.0, 1.0, 0.0, 0.0]),
        // Mark 1: 8 in d, first or not, with a NaN behind it, in e.
        eigen(3, 60, &[-1.0, 0.0, 0.0, -half, -1.0, 0.0, -big, 0.0, 0.0]),
        eigen(4, 60, &[2.0, 0.0, 0.0, 0.0, 1.0, 0.0, 0.0, 0.0, 0.0, big, 1.0, 0.0, 0.0, 1.0, 1.0, -1.0]),
        eigen(2, 60, &[quarter, 0.0, -half, max]),
        eigen(3, 60, &[0.0, 0.0, 0.0, max, 0.0, 0.0, 0.0, 0.0, -big]),
        eigen(3, 60, &[0.0, 0.0, 0.0, half, -1.0, 0.0, 0.0, -max, half]),
        // Mark 1: 10 in d, first or not, with an infinity behind it, in e.
        eigen(2, 60, &[half, 0.0, -big, -max]),
        eigen(2, 60, &[0.0, 0.0, small, -large]),
        eigen(3, 60, &[0.0, 0.0, 0.0, half, 0.0, 0.0, -half, 0.0, 0.0]),
        eigen(3, 60, &[0.0, 0.0, 0.0, 0.0, -1.0, 0.0, 1.0, -max, -1.0]),
        eigen(3, 60, &[half, 0.0, 0.0, 0.0, -big, 0.0, -big, 1.0, -max]),
        eigen(3, 60, &[0.0, 0.0, 0.0, 1.0, 0.0, 0.0, -big, 0.0, big]),
        eigen(4, 60, &[0.0, 0.0, 0.0, 0.0, -big, 0.0, 0.0, 0.0, 1.0, -1.0, -1.0, 0.0, 0.0, big, 0.0, -1.0]),
        eigen(2, 60, &[0.0, 0.0, max, 0.0]),
        // Mark 2: 8 in d.
        eigen(2, 60, &[-half, 0.0, half, -max]),
        // svd, mark 1: 10 in the factor with L rows, tall, square and wide.
        svd(2, 2, 60, &[big, 2.0, big, -big]),
        svd(3, 3, 60, &[1.0, 0.0, 0.0, 0.0, large, large, 0.0, large, -large]),
        svd(4, 3, 60, &[0.0, large, large, 1.0, 0.0, 0.0, 0.0, large, -large, 0.0, 0.0, 0.0]),
        svd(2, 3, 60, &[-big, -half, 0.0, -big, half, 0.0]),
        svd(3, 4, 60, &[1.0, 1.0, 0.0, 1.0, 0.0, 1.0, -1.0, big, -1.0, -big, big, big]),
        // Mark 2: 8 among the values.
        svd(1, 2, 60, &[0.0, -big]),
        svd(2, 2, 60, &[0.0, 0.0, 0.0, -big]),
        svd(2, 3, 60, &[0.0, 0.0, 0.0, 0.0, -big, 0.0]),
        svd(3, 3, 60, &[1.0, 0.0, 0.0, 0.0, 1.0, 0.0, 0.0, 0.0, large]),
        // solve: 8 and 10, first or not, with the other class behind.
        solve(1, 2, 0.0, &[1.0, 2.0, 0.0, -big], &[-1.0]),
        solve(1, 3, 0.0, &[1.0, -1.0, 0.0, 1.0, 2.0], &[-big]),
        solve(1, 2, 0.0, &[1.0, -big, 1.0, 0.0], &[-big]),
        solve(1, 1, 0.0, &[1.0, big, 0.0], &[-big]),
        solve(1, 2, 0.0, &[1.0, big, 0.0, -1.0], &[-big]),
        solve(2, 2, 0.0, &[1.0, 1.0, max, 0.0, 2.0, max, -1.0, -big, 1.0, big], &[-1.0, -1.0]),
        solve(1, 1, 0.0, &[tiny, 1.0, 0.0], &[1.0]),
        solve(1, 1, 0.0, &[tiny, 1.0, 1.0], &[1.0]),
        // pseudo_inverse: likewise; where another order of the cells would count otherwise.
        pseudo_inverse(1, 1, 0.0, &[1.0, -big, 2.0]),
        pseudo_inverse(2, 1, 0.0, &[small, -large, 0.0, two(512)]),
        pseudo_inverse(2, 2, 0.0, &[1.0, 1.0, 1.0, 1.0, 1.0, -1.0, big, 0.0, -big, 1.0]),
        pseudo_inverse(2, 2, 0.0, &[2.0, 1.0, -1.0, 0.0, -big, big, big, big, 0.0, 2.0]),
        pseudo_inverse(1, 1, 0.0, &[small, 0.0, -big]),
        pseudo_inverse(2, 1, 0.0, &[small, 0.0, large, half]),
        pseudo_inverse(2, 2, 0.0, &[1.0, 1.0, 1.0, 1.0, max, max, -max, -1.0, max, 0.0]),
        pseudo_inverse(2, 2, 0.0, &[1.0, 1.0, 0.0, -1.0, -big, big, big, max, big, 0.0]),
        pseudo_inverse(3, 2, 0.0, &[1.0, tiny, 1.0, 0.0, 0.0, 1.0, 0.0, 0.0, 1.0, 0.0, 0.0, 1.0]),
        // qr_q: the norm of each column.
        qr_q(1, 2, &[0.0, -big]),
        qr_q(1, 3, &[0.0, 0.0, half]),
        qr_q(2, 2, &[1.0, max, -1.0, -big]),
        qr_q(2, 3, &[-1.0, 0.0, max, -1.0, 0.0, big]),
        qr_q(2, 3, &[-1.0, max, big, -1.0, big, max]),
    ]
}

/// Every refusal, and pairs of refusals, of which the first in the scope's order is given.
pub fn refusals() -> Vec<Case> {
    let mut out = Vec::new();
    let bad = [NAN, 1.0, INF, -INF];
    // Sizes, limits, lengths, bad numbers: each damage alone and each pair.
    type Damage = fn(&mut Case);
    let far: Damage = |c| c.parameters[0] = 257;
    let far_second: Damage = |c| c.parameters[1] = 257;
    let matrix: Damage = |c| c.a.push(1.0);
    let matrix_short: Damage = |c| c.a.truncate(c.a.len() - 1);
    let work: Damage = |c| c.work_len += 1;
    let work_none: Damage = |c| c.work_len = 0;
    let result: Damage = |c| c.result_len += 1;
    let result_none: Damage = |c| c.result_len = 0;
    let number: Damage = |c| c.a[3] = f64::NAN;
    let number_first: Damage = |c| c.a[0] = f64::INFINITY;
    let eigen_limit: [Damage; 3] =
        [|c| c.parameters[1] = 0, |c| c.parameters[1] = 61, |c| c.parameters[1] = u64::MAX];
    let svd_limit: [Damage; 3] =
        [|c| c.parameters[4] = 0, |c| c.parameters[4] = 61, |c| c.parameters[4] = u64::MAX];
    let no_u: Damage = |c| c.parameters[2] = 0;
    let no_vt: Damage = |c| c.parameters[3] = 0;
    let tolerance_nan: Damage = |c| c.parameters[4] = f64::NAN.to_bits();
    let tolerance_below: Damage = |c| c.parameters[4] = (-two(-1074)).to_bits();
    let right: Damage = |c| c.b.push(1.0);
    let right_none: Damage = |c| c.b.clear();
    let right_number: Damage = |c| c.b[1] = f64::NEG_INFINITY;
    let mut pairs = |case: &Case, damages: &[Damage]| {
        for (i, first) in damages.iter().enumerate() {
            for second in &damages[i..] {
                let mut damaged = case.clone();
                let twice = std::ptr::eq(first, second);
                for damage in [first, second].into_iter().skip(twice as usize) {
                    // A number can't be spoiled in an array that is too short for it.
                    if damaged.a.len() > 3 && (damaged.function != SOLVE || damaged.b.len() > 1) {
                        damage(&mut damaged);
                    }
                }
                out.push(damaged);
            }
        }
    };
    let square = eigen(3, 60, &[1.0, 2.0, 3.0, 2.0, 5.0, 6.0, 3.0, 6.0, 9.0]);
    let edition: [Damage; 3] =
        [|c| c.parameters[2] = 0, |c| c.parameters[2] = 3, |c| c.parameters[2] = u64::MAX];
    let mut all = vec![far, matrix, matrix_short, work, work_none, result, result_none, number, number_first];
    all.extend(eigen_limit);
    all.extend(edition);
    pairs(&square, &all);
    let rectangle = svd(2, 3, 60, &[1.0, 2.0, 3.0, 4.0, 5.0, 7.0]);
    let mut all = vec![far, far_second, matrix, matrix_short, work, work_none, result, result_none, number, number_first];
    all.extend(svd_limit);
    pairs(&rectangle, &all);
    let done = rectangle.outcome().result;
    let shared = [far, far_second, no_u, no_vt, tolerance_nan, tolerance_below, matrix, matrix_short, result, result_none, number, number_first];
    pairs(&pseudo_inverse(2, 3, 0.0, &done), &shared);
    let mut all = shared.to_vec();
    all.extend([right, right_none, right_number]);
    pairs(&solve(2, 3, 0.0, &done, &[1.0, 2.0]), &all);
    pairs(&qr_q(3, 2, &[1.0, 2.0, 3.0, 4.0, 5.0, 7.0]), &[far, far_second, matrix, matrix_short, result, result_none, number, number_first]);

    for limit in [0, 1, 2, 3, 4, 59, 60, 61, 62, 1 << 32, u64::MAX] {
        out.push(eigen(4, limit, &[4.0, 1.0, 2.0, 3.0, 1.0, 3.0, 0.0, 1.0, 2.0, 0.0, 2.0, 1.0, 3.0, 1.0, 1.0, 1.0]));
        out.push(svd(3, 3, limit, &[4.0, 1.0, 2.0, 1.0, 3.0, 0.0, 2.0, 5.0, 2.0]));
        // Settled at l = 0 after a pass, used up at l = 1.
        out.push(eigen(4, limit, &[2.0, 0.0, 0.0, 0.0, 0.0, 0.0, 0.0, 0.0, 0.0, 0.0, 0.0, 0.0, 1.0, 1.0, 0.0, 0.0]));
        out.push(svd(0, 0, limit, &[]));
        out.push(eigen(0, limit, &[]));
    }
    for &x in &bad {
        for at in 0..9 {
            let mut a = [1.0, 2.0, 3.0, 2.0, 5.0, 6.0, 3.0, 6.0, 9.0];
            a[at] = x;
            out.push(eigen(3, 60, &a));
            out.push(svd(3, 3, 60, &a));
            out.push(qr_q(3, 3, &a));
            out.push(svd(9, 1, 60, &a));
        }
        for at in 0..done.len() {
            let mut a = done.clone();
            a[at] = x;
            out.push(solve(2, 3, 0.0, &a, &[1.0, 2.0]));
            out.push(pseudo_inverse(2, 3, 0.0, &a));
        }
        out.push(solve(2, 3, 0.0, &done, &[x, 2.0]));
        out.push(solve(2, 3, 0.0, &done, &[2.0, x]));
    }
    let tiny = two(-1074);
    let other_nan = f64::from_bits(0x7ff0_0000_0000_0001);
    for tolerance in [0.0, -0.0, NAN, -NAN, other_nan, INF, -INF, -1.0, -tiny, -f64::MAX, 4.0, 2.0, 3.0, tiny, f64::MAX] {
        out.push(solve(2, 2, tolerance, &SWAPPED, &[2.0, 4.0]));
        out.push(pseudo_inverse(2, 2, tolerance, &SWAPPED));
        let zero = [4.0, 0.0, 0.0, 1.0, 1.0, 0.0, 0.0, 1.0, 1.0, 0.0];
        out.push(solve(2, 2, tolerance, &zero, &[2.0, 4.0]));
        out.push(pseudo_inverse(2, 2, tolerance, &zero));
    }
    out
}

/// Rows of V^T: every flag, every row and the ones behind the last, lengths one off.
pub fn rows() -> Vec<Case> {
    let mut out = Vec::new();
    for (m, n) in [(0, 0), (0, 3), (3, 0), (1, 1), (2, 3), (3, 2), (4, 4)] {
        for (u, vt) in [(0, 0), (0, 1), (1, 0), (1, 1), (2, u64::MAX)] {
            let len = Case::new(SVD, &[m, n, u, vt], vec![]).result_len;
            for j in 0..m.min(n) + 2 {
                out.push(vt_row(m, n, u, vt, j, len));
            }
            out.push(vt_row(m, n, u, vt, u64::MAX, len));
            out.push(vt_row(m, n, u, vt, 0, len + 1));
            out.push(vt_row(m, n, u, vt, 0, len.saturating_sub(1)));
        }
    }
    out.push(vt_row(257, 2, 1, 1, 0, 2 + 514 + 4));
    out.push(vt_row(2, 257, 1, 1, 0, 2 + 4 + 514));
    out.push(vt_row(u64::MAX, 2, 0, 1, 0, 6));
    out.push(vt_row(2, u64::MAX, 0, 1, 0, 6));
    out.push(large(vt_row(256, 256, 1, 1, 255, 0), 1, 5, 1.0, 256 + 2 * 65536, 0));
    out
}

/// Sizes 32, 64 and 256, inputs by the generator.
pub fn sizes() -> Vec<Case> {
    let mut out = Vec::new();
    for (seed, n) in [(1, 32), (2, 64)] {
        for kind in [1, 2] {
            out.push(large(eigen(n, 60, &[]), kind, seed, 1.0, (n * n) as usize, 0));
            out.push(large(qr_q(n, n, &[]), kind, seed, 1.0, (n * n) as usize, 0));
            out.push(large(svd(n, n, 60, &[]), kind, seed + 9, 1.0, (n * n) as usize, 0));
        }
        let (len, right) = ((n + 2 * n * n) as usize, n as usize);
        out.push(large(solve(n, n, 0.0, &[], &[]), 1, seed, 1.0, len, right));
        out.push(large(solve(n, n, 0.25, &[], &[]), 1, seed, 1.0, len, right));
        out.push(large(pseudo_inverse(n, n, 0.0, &[]), 1, seed, 1.0, len, 0));
        out.push(large(eigen(n, 60, &[]), 3, seed, 1.0, (n * n) as usize, 0));
        out.push(large(eigen(n, 60, &[]), 1, seed, two(1000), (n * n) as usize, 0));
    }
    for (m, n) in [(64, 32), (32, 64), (256, 12), (12, 256)] {
        out.push(large(svd(m, n, 60, &[]), 1, m, 1.0, (m * n) as usize, 0));
        out.push(large(qr_q(m, n, &[]), 1, m, 1.0, (m * n) as usize, 0));
    }
    out.push(large(svd(256, 64, 60, &[]), 1, 3, 1.0, 256 * 64, 0));
    out.push(large(svd(64, 256, 60, &[]), 1, 3, 1.0, 256 * 64, 0));
    out.push(large(svd(256, 256, 60, &[]), 1, 4, 1.0, 65536, 0));
    out.push(large(svd(256, 256, 2, &[]), 1, 4, 1.0, 65536, 0));
    out.push(large(eigen(256, 1, &[]), 1, 1, 1.0, 65536, 0));
    out.push(large(eigen(256, 60, &[]), 2, 7, 1.0, 65536, 0));
    out.push(large(qr_q(256, 256, &[]), 1, 4, 1.0, 65536, 0));
    out.push(large(solve(256, 256, 0.0, &[], &[]), 1, 3, 1.0, 256 + 2 * 65536, 256));
    out.push(large(pseudo_inverse(256, 256, 0.5, &[]), 1, 3, 1.0, 256 + 2 * 65536, 0));
    out
}

/// Matrices of which the two editions give other bits: whole numbers, numbers in ±0.5, and one with a pass at which hypot 1 is off.
pub fn editions() -> Vec<Case> {
    let mut out = Vec::new();
    for seed in 1..40 {
        for kind in [1, 2] {
            let n = 2 + seed % 11;
            out.push(large(eigen(n, 60, &[]), kind, seed, 1.0, (n * n) as usize, 0));
        }
    }
    out
}

/// All of them, and each case of `symmetric_eigen` in edition 2 too.
pub fn all() -> Vec<Case> {
    let mut all = [worked(), findings(), marks(), refusals(), rows(), sizes(), editions()].concat();
    let second = all.iter().filter(|case| case.function == EIGEN && case.parameters[2] == 1).cloned();
    all.extend(second.map(|mut case| { case.parameters[2] = 2; case }).collect::<Vec<_>>());
    all
}
