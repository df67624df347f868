//! Document 000's `top_eigenpairs_lanczos` with the patches of request 12 inside the scope's arrays and refusals: a start vector, sums from index 0
//! at +0.0, what is not finite refused, the inner call with a limit and an edition.

use crate::patched::{Answer, LARGEST, MOST, first_bad, first_wrong, mark, symmetric_eigen, told};

/// How many steps at the most.
pub fn size(n: usize, k: usize) -> usize {
    (2 * k + 20).min(n)
}

pub fn work_length(n: usize, k: usize) -> usize {
    let s = size(n, k);
    s * n + 2 * n + 2 * s * s + 4 * s
}

fn dot(x: &[f64], y: &[f64]) -> f64 {
    let mut sum = 0.0;
    for i in 0..x.len() {
        sum += x[i] * y[i];
    }
    sum
}

fn scaled_add(w: &mut [f64], by: f64, u: &[f64]) {
    for i in 0..w.len() {
        w[i] += by * u[i];
    }
}

fn matvec(n: usize, matrix: &[f64], v: &[f64]) -> Vec<f64> {
    (0..n).map(|i| dot(&matrix[i * n..][..n], v)).collect()
}

fn divided(w: &[f64], by: f64) -> Vec<f64> {
    w.iter().map(|x| x / by).collect()
}

/// The refusal of a number that is not finite; its index is the one given.
fn finite(x: f64, place: usize, index: usize) -> Result<f64, Answer> {
    match mark(place, 0, &[&[x]]) {
        Some(refusal) => Err(Answer { index, ..refusal }),
        None => Ok(x),
    }
}

pub fn lanczos(n: usize, k: usize, limit: usize, edition: usize, matrix: &[f64], start: &[f64], work: &mut [f64], answer: &mut [f64]) -> Answer {
    if n > LARGEST {
        return told(1, 0, 0);
    }
    if limit < 1 || limit > MOST {
        return told(2, 0, 0);
    }
    if edition != 1 && edition != 2 {
        return told(12, 0, 0);
    }
    if n == 0 {
        return told(14, 0, 0);
    }
    if k > n {
        return told(15, 0, 0);
    }
    let wanted = [(matrix.len(), n * n), (start.len(), n), (work.len(), work_length(n, k)), (answer.len(), k + k * n)];
    if let Some(place) = first_wrong(&wanted) {
        return told(6, place, 0);
    }
    work.fill(0.0);
    answer.fill(0.0);
    if let Some(place) = first_bad(&[matrix, start].concat()) {
        return told(7, place, 0);
    }
    match top(n, k, limit, edition, matrix, start) {
        Ok((told, values, rows)) => {
            for (t, (value, row)) in values.iter().zip(&rows).enumerate() {
                answer[t] = *value;
                answer[k + t * n..][..n].copy_from_slice(row);
            }
            if let Some(refusal) = mark(6, told.count, &[answer]) {
                answer.fill(0.0);
                return refusal;
            }
            told
        }
        Err(refusal) => refusal,
    }
}

type Pairs = (Answer, Vec<f64>, Vec<Vec<f64>>);

fn top(n: usize, k: usize, limit: usize, edition: usize, matrix: &[f64], start: &[f64]) -> Result<Pairs, Answer> {
    let norm = finite(dot(start, start).sqrt(), 3, 0)?;
    let mut v = if norm > f64::EPSILON { divided(start, norm) } else { vec![1.0 / (n as f64).sqrt(); n] };
    let mut vectors: Vec<Vec<f64>> = vec![];
    let (mut alphas, mut betas): (Vec<f64>, Vec<f64>) = (vec![], vec![]);
    for step in 0..size(n, k) {
        let mut w = matvec(n, matrix, &v);
        let alpha = finite(dot(&v, &w), 4, step)?;
        scaled_add(&mut w, -alpha, &v);
        if let Some(before) = vectors.last() {
            scaled_add(&mut w, -betas[step - 1], before);
        }
        for _round in 0..2 {
            for u in vectors.iter().chain([&v]) {
                let along = dot(&w, u);
                scaled_add(&mut w, -along, u);
            }
        }
        vectors.push(v);
        alphas.push(alpha);
        let beta = finite(dot(&w, &w).sqrt(), 5, step)?;
        if beta <= 1e-12 {
            break;
        }
        betas.push(beta);
        v = divided(&w, beta);
    }
    let m = alphas.len();
    let mut small = vec![0.0; m * m];
    for i in 0..m {
        small[i * m + i] = alphas[i];
        if i + 1 < m {
            small[i * m + i + 1] = betas[i];
            small[(i + 1) * m + i] = betas[i];
        }
    }
    let mut inner = vec![0.0; m + m * m];
    let said = symmetric_eigen(m, limit, edition, &small, &mut vec![0.0; m], &mut inner);
    if said.answer != 0 {
        return Err(said);
    }
    let mut order: Vec<usize> = (0..m).collect();
    order.sort_by(|&i, &j| inner[j].partial_cmp(&inner[i]).unwrap());
    order.truncate(k);
    let values = order.iter().map(|&c| inner[c]).collect();
    let rows = order
        .iter()
        .map(|&c| {
            let mut ritz = vec![0.0; n];
            for j in 0..m {
                scaled_add(&mut ritz, inner[m + j * m + c], &vectors[j]);
            }
            let norm = dot(&ritz, &ritz).sqrt();
            if norm > f64::EPSILON { divided(&ritz, norm) } else { ritz }
        })
        .collect();
    Ok((Answer { place: order.len(), ..said }, values, rows))
}
