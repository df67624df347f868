//! The eigen run one pass at a time, by the scope's words: a start, steps and a finish over the patched functions. Between calls e stands in work, d at
//! the front of the result and v, column by column, behind it.

use crate::patched::{Answer, LARGEST, MOST, first_bad, first_wrong, mark, move_up, pass, sort, symmetric_eigen, told, tred2};

#[repr(C)]
#[derive(Clone, Copy, Debug)]
pub struct Run {
    pub n: usize,
    pub limit: usize,
    pub edition: usize,
    pub l: usize,
    pub m: usize,
    pub f: f64,
    pub tst1: f64,
    pub passes: usize,
    pub count: usize,
    pub stop: usize,
    pub index: usize,
    pub answer: Answer,
}

/// v row by row, d and e, out of the arrays.
fn taken(n: usize, work: &[f64], result: &[f64]) -> (Vec<f64>, Vec<f64>, Vec<f64>) {
    let v = (0..n * n).map(|k| result[n + k % n * n + k / n]).collect();
    (v, result[..n].to_vec(), work.to_vec())
}

fn left(v: &[f64], d: &[f64], e: &[f64], work: &mut [f64], result: &mut [f64]) {
    let n = d.len();
    work.copy_from_slice(e);
    result[..n].copy_from_slice(d);
    for k in 0..n * n {
        result[n + k % n * n + k / n] = v[k];
    }
}

pub fn start(n: usize, limit: usize, edition: usize, matrix: &[f64], work: &mut [f64], result: &mut [f64]) -> Run {
    let fresh = Run {
        n,
        limit,
        edition,
        l: 0,
        m: 0,
        f: 0.0,
        tst1: 0.0,
        passes: 0,
        count: 0,
        stop: 1,
        index: 0,
        answer: told(0, 0, 0),
    };
    // Every refusal before the run is the one call's.
    let good = n > 0 && n <= LARGEST && matrix.len() == n * n && (0..n * n).all(|k| k % n > k / n || matrix[k].is_finite());
    if !good || !(1..=MOST).contains(&limit) || !(1..=2).contains(&edition) || work.len() != n || result.len() != n + n * n {
        return Run { answer: symmetric_eigen(n, limit, edition, matrix, work, result), ..fresh };
    }
    work.fill(0.0);
    result.fill(0.0);
    let (mut v, mut d, mut e) = (matrix.to_vec(), vec![0.0; n], vec![0.0; n]);
    tred2(n, &mut v, &mut d, &mut e);
    if let Some(refusal) = mark(0, 0, &[&d, &e, &v]) {
        return Run { answer: refusal, ..fresh };
    }
    move_up(n, &mut e);
    left(&v, &d, &e, work, result);
    Run { stop: 0, ..fresh }
}

/// What is refused of a run still going: 6, then 13.
fn refusal(q: &Run, work: &[f64], result: &[f64]) -> Option<Answer> {
    let wanted = q.n.checked_mul(q.n).and_then(|s| s.checked_add(q.n));
    let fits = wanted.map_or(result.len() + 1, |w| w.wrapping_sub(result.len()));
    if let Some(place) = first_wrong(&[(work.len(), q.n), (fits, 0)]) {
        return Some(told(6, place, 0));
    }
    let sizes = (1..=LARGEST).contains(&q.n) && (1..=MOST).contains(&q.limit) && (1..=2).contains(&q.edition);
    let here = sizes && q.l <= q.n && q.m < q.n && q.passes < q.limit && (q.passes == 0 || q.l < q.m);
    let counts = here && q.passes <= q.count && q.count <= q.l * q.limit + q.passes && q.index == 0;
    let numbers = counts && q.tst1 >= 0.0 && work[q.n - 1] == 0.0;
    let sound = numbers && first_bad(&result[q.l..q.n]).is_none() && first_bad(&work[q.l..]).is_none();
    (!sound).then(|| told(13, 0, 0))
}

/// The run has ended: everything is filled.
fn ended(q: Run, stop: usize, answer: Answer, work: &mut [f64], result: &mut [f64]) -> Run {
    work.fill(0.0);
    result.fill(0.0);
    Run { stop, index: if stop == 9 { 0 } else { answer.index }, answer, ..q }
}

pub fn step(mut q: Run, work: &mut [f64], result: &mut [f64]) -> Run {
    if q.stop != 0 {
        return q;
    }
    if let Some(answer) = refusal(&q, work, result) {
        return Run { answer, ..q };
    }
    let (n, eps) = (q.n, f64::EPSILON);
    let (mut v, mut d, mut e) = taken(n, work, result);
    let settle = |q: &mut Run, d: &mut [f64], e: &mut [f64]| {
        d[q.l] += q.f;
        e[q.l] = 0.0;
        q.l += 1;
        q.passes = 0;
    };
    while q.passes == 0 && q.l < n {
        let here = d[q.l].abs() + e[q.l].abs();
        if q.tst1 < here {
            q.tst1 = here;
        }
        q.m = (q.l..n).find(|&k| e[k].abs() <= eps * q.tst1).unwrap_or(n);
        if q.m > q.l {
            break;
        }
        settle(&mut q, &mut d, &mut e);
    }
    if q.l < n {
        pass(n, q.edition, q.l, q.m, &mut q.f, &mut v, &mut d, &mut e);
        q.passes += 1;
        q.count += 1;
        if let Some(refusal) = mark(1, q.count, &[&d, &e]) {
            return ended(q, refusal.answer, refusal, work, result);
        }
        if e[q.l].abs() <= eps * q.tst1 {
            settle(&mut q, &mut d, &mut e);
        } else if q.passes == q.limit {
            let refusal = told(9, q.l, q.count);
            return ended(q, 9, refusal, work, result);
        }
    }
    left(&v, &d, &e, work, result);
    Run { answer: told(0, 0, q.count), ..q }
}

pub fn finish(q: Run, work: &mut [f64], result: &mut [f64]) -> Run {
    if q.stop != 0 {
        return q;
    }
    if let Some(answer) = refusal(&q, work, result) {
        return Run { answer, ..q };
    }
    if q.l < q.n {
        return Run { answer: told(13, 0, 0), ..q };
    }
    let n = q.n;
    let (mut v, mut d, _) = taken(n, work, result);
    if let Some(refusal) = mark(2, q.count, &[&d, &v]) {
        return Run { index: 0, ..ended(q, 1, refusal, work, result) };
    }
    sort(n, &mut v, &mut d);
    work.fill(0.0);
    result[..n].copy_from_slice(&d);
    result[n..].copy_from_slice(&v);
    Run { stop: 1, answer: told(0, 0, q.count), ..q }
}

/// The whole run, as the one call gives it.
pub fn whole(n: usize, limit: usize, edition: usize, matrix: &[f64], work: &mut [f64], result: &mut [f64]) -> Answer {
    let mut q = start(n, limit, edition, matrix, work, result);
    for _ in 0..LARGEST * MOST {
        if q.stop != 0 || q.l == q.n {
            break;
        }
        q = step(q, work, result);
    }
    finish(q, work, result).answer
}
