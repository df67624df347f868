//! Cases of `lanczos`: those chosen by hand, random ones, the committed list `tests/vectors/lanczos.list`, and two checks: against document 000's
//! own text, and against `symmetric_eigen` on covariances.

use crate::cases::*;
use crate::lanczos::{lanczos, work_length};
use crate::patched::symmetric_eigen;
use crate::plain;
use std::io::{self, Write};

const LIST_SEED: u64 = 12;
const LIST_RANDOM: usize = 400;
/// Words of an answer up to this many stand in the committed list; a longer one is there by its hash.
const SHOWN: usize = 20;

fn case(p: [u64; 4], a: &[f64], start: &[f64]) -> Case {
    let mut case = Case::new(LANCZOS, &p, a.to_vec());
    case.b = start.to_vec();
    case
}

fn made_case(p: [u64; 4], kind: u64, seed: u64, scale: f64) -> Case {
    let n = p[0] as usize;
    let mut all = made(kind, seed, scale, n * n + n);
    let start = all.split_off(n * n);
    let mut case = case(p, &all, &start);
    case.input = Input::Made { kind, seed, scale };
    case
}

fn covariance(rng: &mut Random, n: usize) -> Vec<f64> {
    let samples = 2 * n + 8;
    let sources = 1 + rng.below(n as u64) as usize;
    let mix: Vec<f64> = (0..n * sources).map(|_| rng.unit()).collect();
    let noise = rng.power(-12, -4);
    let x: Vec<Vec<f64>> = (0..samples)
        .map(|_| {
            let s: Vec<f64> = (0..sources).map(|k| rng.unit() / (1 + k) as f64).collect();
            (0..n).map(|i| (0..sources).map(|k| mix[i * sources + k] * s[k]).sum::<f64>() + noise * rng.unit()).collect()
        })
        .collect();
    let mut a = vec![0.0; n * n];
    for i in 0..n {
        for j in 0..=i {
            let sum = x.iter().map(|x| x[i] * x[j]).sum::<f64>() / samples as f64;
            a[i * n + j] = sum;
            a[j * n + i] = sum;
        }
    }
    a
}

/// Every refusal alone and with those behind it, the start vectors, 1e-12 and its neighbours, and what is not finite at places 0, 1, 3, 4 and 5.
pub fn special() -> Vec<Case> {
    let (max, nan, inf) = (f64::MAX, f64::NAN, f64::INFINITY);
    let tiny = 1e-12;
    let above = f64::from_bits(1e-12_f64.to_bits() + 1);
    let three = [4.0, 1.0, 0.0, 1.0, 3.0, 1.0, 0.0, 1.0, 2.0];
    let ones = [1.0, 1.0, 1.0];
    let swap = |t: f64| [0.0, t, t, 0.0];
    let mut out = vec![];
    // Refusals: each number bad by itself, and each with all behind it bad too.
    for (n, k, limit, edition) in [
        (257, 3, 60, 1), (257, 300, 0, 0), (u64::MAX, 0, 60, 1), (3, 1, 0, 1), (3, 1, 61, 1), (3, 1, 0, 3), (3, 1, 60, 0), (3, 1, 60, 3),
        (0, 1, 60, 0), (0, 0, 60, 1), (0, 1, 60, 1), (0, 5, 60, 2), (3, 4, 60, 1), (3, 1 << 32, 60, 1), (3, u64::MAX, 60, 2), (1, 2, 60, 1),
    ] {
        for (a, start) in [(&three[..], &ones[..]), (&[], &[])] {
            let mut c = case([n, k, limit, edition], a, start);
            if n > 256 {
                (c.work_len, c.result_len) = (5, 5);
            }
            out.push(c);
        }
    }
    for wrong in 0..4 {
        for by in [-1i64, 1] {
            let mut c = case([3, 2, 60, 1], &three, &ones);
            let other = |len: usize| (len as i64 + by) as usize;
            match wrong {
                0 => c.a.resize(other(9), nan),
                1 => c.b.resize(other(3), nan),
                2 => c.work_len = other(c.work_len),
                _ => c.result_len = other(c.result_len),
            }
            out.push(c.clone());
            c.result_len += 5;
            out.push(c);
        }
    }
    for at in 0..12 {
        for bad in [nan, inf, -inf] {
            let mut c = case([3, 2, 60, 1 + at as u64 % 2], &three, &ones);
            if at < 9 { c.a[at] = bad } else { c.b[at - 9] = bad }
            out.push(c);
        }
    }
    // Above the diagonal too, and the first of several.
    let mut c = case([3, 2, 60, 1], &three, &ones);
    (c.a[5], c.b[0]) = (inf, nan);
    out.push(c);
    for edition in 1..=2 {
        for k in 0..=3 {
            out.push(case([3, k, 60, edition], &three, &ones));
            out.push(case([3, k, 60, edition], &three, &[0.0, -0.0, 0.0]));
            // One direction alone: fewer pairs than asked for.
            out.push(case([3, k, 60, edition], &[2.0, 0.0, 0.0, 0.0, 2.0, 0.0, 0.0, 0.0, 2.0], &[1.0, 2.0, 3.0]));
            out.push(case([3, k, 60, edition], &[0.0; 9], &ones));
        }
        for start in [two(-52), two(-51), two(-53), -two(-52), two(-52) + two(-104), two(-1074), max, two(511), two(512)] {
            out.push(case([1, 1, 60, edition], &[5.0], &[start]));
            out.push(case([2, 2, 60, edition], &[5.0, 1.0, 1.0, -5.0], &[start, 0.0]));
        }
        for t in [tiny, above, f64::from_bits(tiny.to_bits() - 1), 2.0 * tiny, two(-40), two(-39), two(-600)] {
            out.push(case([2, 2, 60, edition], &swap(t), &[1.0, 0.0]));
        }
        // Equal values in their old order, and values of both signs.
        out.push(case([4, 4, 60, edition], &[1.0, 1.0, 0.0, 0.0, 1.0, 1.0, 0.0, 0.0, 0.0, 0.0, 1.0, -1.0, 0.0, 0.0, -1.0, 1.0], &[1.0, 2.0, 3.0, 4.0]));
        // Not symmetric: all of the matrix is read.
        out.push(case([2, 2, 60, edition], &[1.0, 7.0, 2.0, 3.0], &[1.0, 1.0]));
        out.push(case([2, 2, 60, edition], &[1.0, 2.0, 7.0, 3.0], &[1.0, 1.0]));
        // The start norm (3) infinite; alpha (4) infinite and NaN, in the first step and later; beta (5) infinite in both, NaN in the first.
        out.push(case([2, 1, 60, edition], &swap(1.0), &[max, max]));
        out.push(case([2, 1, 60, edition], &[max, max, max, max], &[1.0, 1.0]));
        out.push(case([2, 1, 60, edition], &[max, max, -max, -max], &[1.0, 1.0]));
        out.push(case([3, 1, 60, edition], &[0.0, 1.0, 1.0, 1.0, max, max, 1.0, max, max], &[1.0, 0.0, 0.0]));
        out.push(case([3, 1, 60, edition], &[0.0, 1.0, 1.0, 1.0, max, max, 1.0, -max, -max], &[1.0, 0.0, 0.0]));
        out.push(case([2, 1, 60, edition], &swap(two(600)), &[1.0, 0.0]));
        out.push(case([3, 2, 60, edition], &[0.0, 1.0, 0.0, 1.0, 0.0, two(600), 0.0, two(600), 0.0], &[1.0, 0.0, 0.0]));
        out.push(case([2, 1, 60, edition], &[0.9 * max, 0.575 * max, -max, -0.5 * max], &[0.6, 0.8]));
        // The inner call: its marks and its limit.
        out.push(case([2, 2, 60, edition], &[-two(1023), 2.0, 2.0, 2.0], &[-3.0, 0.0]));
        out.push(case([2, 2, 60, edition], &[two(-1074), 0.5, 0.5, two(1023)], &[1.0, 0.0]));
        for limit in [1, 2, 3] {
            out.push(made_case([6, 3, limit, edition], 1, 5, 1.0));
        }
        for (n, k, kind, seed, scale) in [(24, 2, 1, 7, 1.0), (30, 4, 2, 9, 0.5), (64, 8, 1, 11, 1.0), (12, 12, 1, 3, two(500))] {
            out.push(made_case([n, k, 60, edition], kind, seed, scale));
        }
    }
    out.push(made_case([256, 8, 60, 1], 1, 21, 1.0));
    out
}

/// A random case with sizes up to `largest`.
pub fn random(rng: &mut Random, largest: u64) -> Case {
    let n = size(rng, largest);
    let k = if rng.one_in(20) { n + 1 + rng.below(3) } else { rng.below(n + 1) };
    let u = n as usize;
    let mut a = if rng.one_in(4) && n > 0 { covariance(rng, u) } else { numbers(rng, u, u) };
    if !rng.one_in(5) {
        for i in 0..u {
            for j in 0..i {
                a[j * u + i] = a[i * u + j];
            }
        }
    }
    let mut start = numbers(rng, u, 1);
    if rng.one_in(10) {
        start.fill(rng.of(&[0.0, 1.0, two(-52), two(-54)]));
    } else if rng.one_in(10) && n > 0 {
        start.fill(0.0);
        start[rng.below(n) as usize] = 1.0;
    }
    let mut c = case([n, k, limit(rng), edition(rng)], &a, &start);
    c.old = rng.of(&[0x4045_0000_0000_0000, 0xbff0_0000_0000_0001, 0x0000_0000_0000_0001, 0x7ff0_0000_0000_0001, 0xfff8_0000_0000_0000]);
    if rng.one_in(12) {
        spoiled(rng, &mut c.a);
    }
    if rng.one_in(12) {
        spoiled(rng, &mut c.b);
    }
    if rng.one_in(12) {
        let len = damaged(rng, c.a.len());
        c.a.resize(len, 7.0);
    }
    if rng.one_in(12) {
        let len = damaged(rng, c.b.len());
        c.b.resize(len, 7.0);
    }
    if rng.one_in(12) {
        c.work_len = damaged(rng, c.work_len);
    }
    if rng.one_in(12) {
        c.result_len = damaged(rng, c.result_len);
    }
    if rng.one_in(30) {
        c.parameters[0] = rng.of(&FAR);
    }
    if rng.one_in(30) {
        c.parameters[1] = rng.of(&FAR);
    }
    c
}

fn listed() -> Vec<Case> {
    let mut cases = special();
    let mut rng = Random::new(LIST_SEED);
    for _ in 0..LIST_RANDOM {
        cases.push(random(&mut rng, 9));
    }
    cases
}

pub fn list(out: &mut impl Write) -> io::Result<()> {
    for case in listed() {
        case.write(out, SHOWN)?;
    }
    out.write_all(&0u64.to_le_bytes())
}

pub fn fresh(out: &mut impl Write, seed: u64, cases: usize, largest: u64) -> io::Result<()> {
    let mut rng = Random::new(seed);
    for _ in 0..cases {
        random(&mut rng, largest).write(out, usize::MAX)?;
    }
    out.write_all(&0u64.to_le_bytes())
}

/// Where `lanczos` answers 0, document 000's own text gives the same bits; arrays after a refusal are as the scope says.
pub fn check(seed: u64, cases: usize, largest: u64) -> bool {
    let mut counts = std::collections::BTreeMap::new();
    let (mut wrong, mut compared, mut early) = (0, 0, 0);
    let mut rng = Random::new(seed);
    let mut all = special();
    while all.len() < cases {
        all.push(random(&mut rng, largest));
    }
    for case in &all {
        let done = case.outcome();
        let said = done.answer;
        let by_place = if matches!(said.answer, 6 | 8 | 10) { said.place } else { 0 };
        *counts.entry((said.answer, by_place)).or_insert(0) += 1;
        let plus_zero = |cells: &[f64]| cells.iter().all(|x| x.to_bits() == 0);
        let same = |x: &[f64], y: &[f64]| x.len() == y.len() && x.iter().zip(y).all(|(x, y)| x.to_bits() == y.to_bits());
        let (work, result) = case.before();
        let at = said.index == 0 || matches!(said.answer, 8 | 10);
        let fits = at && match said.answer {
            0 => plus_zero(&done.work) && done.result.iter().all(|x| x.is_finite()),
            1..=6 | 12 | 14 | 15 => same(&work, &done.work) && same(&result, &done.result),
            _ => plus_zero(&done.work) && plus_zero(&done.result),
        };
        let p = case.parameters.map(|p| p as usize);
        let agrees = said.answer != 0 || {
            compared += 1;
            let (values, rows) = match p[3] {
                2 => plain::by_02::lanczos_cells(p[0], p[1], &case.a, &case.b),
                _ => plain::by_01::lanczos_cells(p[0], p[1], &case.a, &case.b),
            };
            let found = values.len();
            early += (found < p[1]) as usize;
            let rest = plus_zero(&done.result[found..p[1]]) && plus_zero(&done.result[p[1] + found * p[0]..]);
            found == said.place && rest && same(&values, &done.result[..found]) && same(&rows, &done.result[p[1]..][..found * p[0]])
        };
        if !fits || !agrees {
            wrong += 1;
            println!("answer {said:?}: {:?} {:?} {:?}", case.parameters, case.a, case.b);
        }
    }
    println!("lanczos: {compared} compared with document 000, {early} of them with fewer pairs than asked for; cases by (answer, place): {counts:?}");
    println!("{} cases, {wrong} wrong", all.len());
    wrong == 0
}

/// The leading values beside those of `symmetric_eigen` of the same covariance, as a part of the greatest: the worst of many. 8 of up to 256.
pub fn beside(seed: u64, cases: usize) -> bool {
    let mut rng = Random::new(seed);
    let mut worst = [0.0f64; 2];
    let mut over = 0;
    for i in 0..cases {
        let n = if i % 40 == 0 { 256 } else { 8 + rng.below(57) as usize };
        let k = 8;
        let a = covariance(&mut rng, n);
        let start: Vec<f64> = (0..n).map(|_| rng.unit()).collect();
        let mut answer = vec![0.0; k + k * n];
        let said = lanczos(n, k, 60, 1, &a, &start, &mut vec![0.0; work_length(n, k)], &mut answer);
        let mut result = vec![0.0; n + n * n];
        let full = symmetric_eigen(n, 60, 1, &a, &mut vec![0.0; n], &mut result);
        if said.answer != 0 || full.answer != 0 || said.place != k {
            println!("covariance {i}, n = {n}: {said:?} {full:?}");
            over += 1;
            continue;
        }
        for t in 0..k {
            let apart = (answer[t] - result[n - 1 - t]).abs() / result[n - 1];
            worst[(t > 0) as usize] = worst[(t > 0) as usize].max(apart);
            over += (apart > BESIDE) as usize;
        }
    }
    println!("lanczos beside symmetric_eigen: {cases} covariances, 8 values each; apart by at most {:.1e} (the first) and {:.1e} (the others) of the greatest; {over} over {BESIDE:e}", worst[0], worst[1]);
    over == 0
}

/// How far the leading values may be apart, as a part of the greatest.
pub const BESIDE: f64 = 1e-8;
