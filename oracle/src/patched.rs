//! Document 000 with the scope's three patches (hypot, of either edition, limits, marks) inside the scope's arrays and refusals. Storage and shape of
//! the routines are document 000's: row by row, one routine each.

use crate::hypot::by_edition;

#[repr(C)]
#[derive(Clone, Copy, Debug, PartialEq, Eq)]
pub struct Answer {
    pub answer: usize,
    pub place: usize,
    pub index: usize,
    pub count: usize,
}

pub const LARGEST: usize = 256;
pub const MOST: usize = 60;

pub fn told(answer: usize, place: usize, count: usize) -> Answer {
    Answer { answer, place, index: 0, count }
}

/// The answer that a number which is not finite gives.
fn class(x: f64) -> usize {
    if x.is_nan() { 10 } else { 8 }
}

/// A mark: the refusal of the first number that is not finite in the arrays, one behind the other.
pub fn mark(place: usize, count: usize, arrays: &[&[f64]]) -> Option<Answer> {
    let numbers = arrays.concat();
    let index = first_bad(&numbers)?;
    Some(Answer { answer: class(numbers[index]), place, index, count })
}

pub fn first_bad(numbers: &[f64]) -> Option<usize> {
    numbers.iter().position(|x| !x.is_finite())
}

/// The first array whose length is not the one wanted, numbered from 0.
pub fn first_wrong(lengths: &[(usize, usize)]) -> Option<usize> {
    lengths.iter().position(|(has, wants)| has != wants)
}

// ---------------------------------------------------------------- symmetric_eigen

pub fn symmetric_eigen(n: usize, limit: usize, edition: usize, matrix: &[f64], work: &mut [f64], result: &mut [f64]) -> Answer {
    if n > LARGEST {
        return told(1, 0, 0);
    }
    if limit < 1 || limit > MOST {
        return told(2, 0, 0);
    }
    if edition != 1 && edition != 2 {
        return told(12, 0, 0);
    }
    if let Some(place) = first_wrong(&[(matrix.len(), n * n), (work.len(), n), (result.len(), n + n * n)]) {
        return told(6, place, 0);
    }
    work.fill(0.0);
    result.fill(0.0);
    for i in 0..n {
        for j in 0..=i {
            if !matrix[i * n + j].is_finite() {
                return told(7, i * n + j, 0);
            }
        }
    }
    if n == 0 {
        return told(0, 0, 0);
    }
    let mut v = matrix.to_vec();
    let mut d = vec![0.0_f64; n];
    let mut e = vec![0.0_f64; n];
    tred2(n, &mut v, &mut d, &mut e);
    if let Some(refusal) = mark(0, 0, &[&d, &e, &v]) {
        return refusal;
    }
    let answer = tql2(n, limit, edition, &mut v, &mut d, &mut e);
    if answer.answer == 0 {
        result[..n].copy_from_slice(&d);
        result[n..].copy_from_slice(&v);
    }
    answer
}

pub fn tred2(n: usize, v: &mut [f64], d: &mut [f64], e: &mut [f64]) {
    for j in 0..n {
        d[j] = v[(n - 1) * n + j];
    }
    for i in (1..n).rev() {
        let mut scale = 0.0;
        let mut h = 0.0;
        for k in 0..i {
            scale += d[k].abs();
        }
        if scale == 0.0 {
            e[i] = d[i - 1];
            for j in 0..i {
                d[j] = v[(i - 1) * n + j];
                v[i * n + j] = 0.0;
                v[j * n + i] = 0.0;
            }
        } else {
            for k in 0..i {
                d[k] /= scale;
                h += d[k] * d[k];
            }
            let mut f = d[i - 1];
            let mut g = h.sqrt();
            if f > 0.0 {
                g = -g;
            }
            e[i] = scale * g;
            h -= f * g;
            d[i - 1] = f - g;
            for j in 0..i {
                e[j] = 0.0;
            }
            for j in 0..i {
                f = d[j];
                v[j * n + i] = f;
                g = e[j] + v[j * n + j] * f;
                for k in j + 1..i {
                    g += v[k * n + j] * d[k];
                    e[k] += v[k * n + j] * f;
                }
                e[j] = g;
            }
            f = 0.0;
            for j in 0..i {
                e[j] /= h;
                f += e[j] * d[j];
            }
            let hh = f / (h + h);
            for j in 0..i {
                e[j] -= hh * d[j];
            }
            for j in 0..i {
                f = d[j];
                g = e[j];
                for k in j..i {
                    v[k * n + j] -= f * e[k] + g * d[k];
                }
                d[j] = v[(i - 1) * n + j];
                v[i * n + j] = 0.0;
            }
        }
        d[i] = h;
    }
    for i in 0..n - 1 {
        v[(n - 1) * n + i] = v[i * n + i];
        v[i * n + i] = 1.0;
        let h = d[i + 1];
        if h != 0.0 {
            for k in 0..=i {
                d[k] = v[k * n + (i + 1)] / h;
            }
            for j in 0..=i {
                let mut g = 0.0;
                for k in 0..=i {
                    g += v[k * n + (i + 1)] * v[k * n + j];
                }
                for k in 0..=i {
                    v[k * n + j] -= g * d[k];
                }
            }
        }
        for k in 0..=i {
            v[k * n + (i + 1)] = 0.0;
        }
    }
    for j in 0..n {
        d[j] = v[(n - 1) * n + j];
        v[(n - 1) * n + j] = 0.0;
    }
    v[(n - 1) * n + (n - 1)] = 1.0;
    e[0] = 0.0;
}

pub fn move_up(n: usize, e: &mut [f64]) {
    for i in 1..n {
        e[i - 1] = e[i];
    }
    e[n - 1] = 0.0;
}

fn tql2(n: usize, limit: usize, edition: usize, v: &mut [f64], d: &mut [f64], e: &mut [f64]) -> Answer {
    move_up(n, e);

    let mut f = 0.0_f64;
    let mut tst1 = 0.0_f64;
    let mut count = 0;
    let eps = f64::EPSILON;
    for l in 0..n {
        let here = d[l].abs() + e[l].abs();
        if tst1 < here {
            tst1 = here;
        }
        let mut m = l;
        while m < n && !(e[m].abs() <= eps * tst1) {
            m += 1;
        }
        let mut passes = 0;
        while m > l {
            pass(n, edition, l, m, &mut f, v, d, e);
            passes += 1;
            count += 1;
            if let Some(refusal) = mark(1, count, &[d, e]) {
                return refusal;
            }
            if e[l].abs() <= eps * tst1 {
                break;
            }
            if passes == limit {
                return told(9, l, count);
            }
        }
        d[l] += f;
        e[l] = 0.0;
    }
    if let Some(refusal) = mark(2, count, &[d, v]) {
        return refusal;
    }

    sort(n, v, d);
    told(0, 0, count)
}

/// The selection sort at the end of `tql2`.
pub fn sort(n: usize, v: &mut [f64], d: &mut [f64]) {
    for i in 0..n - 1 {
        let mut k = i;
        let mut p = d[i];
        for j in i + 1..n {
            if d[j] < p {
                k = j;
                p = d[j];
            }
        }
        if k != i {
            d[k] = d[i];
            d[i] = p;
            for row in 0..n {
                v.swap(row * n + i, row * n + k);
            }
        }
    }
}

/// One QL pass of `tql2`: the body of its unbounded `loop`.
pub fn pass(n: usize, edition: usize, l: usize, m: usize, f: &mut f64, v: &mut [f64], d: &mut [f64], e: &mut [f64]) {
    let mut g = d[l];
    let mut p = (d[l + 1] - g) / (2.0 * e[l]);
    let mut r = by_edition(edition, p, 1.0);
    if p < 0.0 {
        r = -r;
    }
    d[l] = e[l] / (p + r);
    d[l + 1] = e[l] * (p + r);
    let dl1 = d[l + 1];
    let mut h = g - d[l];
    for i in l + 2..n {
        d[i] -= h;
    }
    *f += h;

    p = d[m];
    let mut c = 1.0;
    let mut c2 = c;
    let mut c3 = c;
    let el1 = e[l + 1];
    let mut s = 0.0;
    let mut s2 = 0.0;
    for i in (l..m).rev() {
        c3 = c2;
        c2 = c;
        s2 = s;
        g = c * e[i];
        h = c * p;
        r = by_edition(edition, p, e[i]);
        e[i + 1] = s * r;
        s = e[i] / r;
        c = p / r;
        p = c * d[i] - s * g;
        d[i + 1] = h + s * (c * g + s * d[i]);
        for k in 0..n {
            h = v[k * n + (i + 1)];
            v[k * n + (i + 1)] = s * v[k * n + i] + c * h;
            v[k * n + i] = c * v[k * n + i] - s * h;
        }
    }
    p = -s * s2 * c3 * el1 * e[l] / dl1;
    e[l] = s * p;
    d[l] = c * p;
}

// ---------------------------------------------------------------- svd

fn decomposition_length(m: usize, n: usize, has_u: usize, has_vt: usize) -> usize {
    let r = m.min(n);
    r + if has_u != 0 { m * r } else { 0 } + if has_vt != 0 { r * n } else { 0 }
}

pub fn svd(
    m: usize,
    n: usize,
    want_u: usize,
    want_vt: usize,
    limit: usize,
    matrix: &[f64],
    work: &mut [f64],
    result: &mut [f64],
) -> Answer {
    if m > LARGEST || n > LARGEST {
        return told(1, 0, 0);
    }
    if limit < 1 || limit > MOST {
        return told(2, 0, 0);
    }
    let r = m.min(n);
    let tall = m.max(n);
    let wanted = [
        (matrix.len(), m * n),
        (work.len(), tall * r + r * r + r),
        (result.len(), decomposition_length(m, n, want_u, want_vt)),
    ];
    if let Some(place) = first_wrong(&wanted) {
        return told(6, place, 0);
    }
    work.fill(0.0);
    result.fill(0.0);
    if let Some(place) = first_bad(matrix) {
        return told(7, place, 0);
    }

    // The matrix or its transpose, `tall` by `r`.
    let mut u = vec![0.0; tall * r];
    for i in 0..m {
        for j in 0..n {
            let at = if m >= n { i * r + j } else { j * r + i };
            u[at] = matrix[i * n + j];
        }
    }
    let mut v = vec![0.0; r * r];
    let mut s = vec![0.0; r];
    let answer = jacobi_svd_tall(tall, r, limit, &mut u, &mut v, &mut s);
    if answer.answer != 0 {
        return answer;
    }

    // Descending, equal values in their old order.
    let mut order: Vec<usize> = (0..r).collect();
    order.sort_by(|&i, &j| s[j].partial_cmp(&s[i]).unwrap());
    let (u_like, v_like) = if m >= n { (&u, &v) } else { (&v, &u) };
    for k in 0..r {
        result[k] = s[order[k]];
    }
    let mut at = r;
    if want_u != 0 {
        for i in 0..m {
            for k in 0..r {
                result[at] = u_like[i * r + order[k]];
                at += 1;
            }
        }
    }
    if want_vt != 0 {
        for k in 0..r {
            for j in 0..n {
                result[at] = v_like[j * r + order[k]];
                at += 1;
            }
        }
    }
    answer
}

/// `u` (rows by n) comes in as the matrix; `v` (n by n) and `s` (n) as zeros.
fn jacobi_svd_tall(rows: usize, n: usize, limit: usize, u: &mut [f64], v: &mut [f64], s: &mut [f64]) -> Answer {
    for i in 0..n {
        v[i * n + i] = 1.0;
    }
    let mut count = 0;
    loop {
        let changed = sweep(rows, n, u, v);
        count += 1;
        if let Some(refusal) = mark(1, count, &[u, v]) {
            return refusal;
        }
        if !changed {
            break;
        }
        if count == limit {
            return told(9, count, count);
        }
    }
    for j in 0..n {
        let mut norm_sq = 0.0;
        for i in 0..rows {
            norm_sq += u[i * n + j] * u[i * n + j];
        }
        let norm = norm_sq.sqrt();
        s[j] = norm;
        if norm > 0.0 {
            for i in 0..rows {
                u[i * n + j] /= norm;
            }
        }
    }
    if let Some(refusal) = mark(2, count, &[s, u, v]) {
        return refusal;
    }
    told(0, 0, count)
}

fn sweep(rows: usize, n: usize, u: &mut [f64], v: &mut [f64]) -> bool {
    let mut changed = false;
    for p in 0..n {
        for q in p + 1..n {
            let mut alpha = 0.0;
            let mut beta = 0.0;
            let mut gamma: f64 = 0.0;
            for i in 0..rows {
                let up = u[i * n + p];
                let uq = u[i * n + q];
                alpha += up * up;
                beta += uq * uq;
                gamma += up * uq;
            }
            if gamma == 0.0 || gamma.abs() <= f64::EPSILON * f64::sqrt(alpha * beta) {
                continue;
            }
            changed = true;
            let zeta: f64 = (beta - alpha) / (2.0 * gamma);
            let sign = if zeta >= 0.0 { 1.0 } else { -1.0 };
            let t = sign / (zeta.abs() + (1.0 + zeta * zeta).sqrt());
            let c = 1.0 / (1.0 + t * t).sqrt();
            let s = c * t;
            turn(rows, n, p, q, c, s, u);
            turn(n, n, p, q, c, s, v);
        }
    }
    changed
}

fn turn(rows: usize, n: usize, p: usize, q: usize, c: f64, s: f64, a: &mut [f64]) {
    for i in 0..rows {
        let ap = a[i * n + p];
        let aq = a[i * n + q];
        a[i * n + p] = c * ap - s * aq;
        a[i * n + q] = s * ap + c * aq;
    }
}

/// Start and length of row j of V^T in a decomposition, (0, 0) where there is none.
pub fn vt_row(m: usize, n: usize, has_u: usize, has_vt: usize, j: usize, decomposition: &[f64]) -> (usize, usize) {
    vt_row_at(m, n, has_u, has_vt, j, decomposition.len())
}

/// The same by the decomposition's length alone.
pub fn vt_row_at(m: usize, n: usize, has_u: usize, has_vt: usize, j: usize, len: usize) -> (usize, usize) {
    if m > LARGEST || n > LARGEST || has_vt == 0 || j >= m.min(n) {
        return (0, 0);
    }
    if len != decomposition_length(m, n, has_u, has_vt) {
        return (0, 0);
    }
    let r = m.min(n);
    let behind = r + if has_u != 0 { m * r } else { 0 };
    (behind + j * n, n)
}

// ---------------------------------------------------------------- solve, pseudo_inverse

/// A tolerance that is refused with 11: a NaN, or one below 0, which -0.0 is not.
fn bad_tolerance(tolerance: f64) -> bool {
    tolerance.is_nan() || tolerance < 0.0
}

pub fn solve(
    m: usize,
    n: usize,
    has_u: usize,
    has_vt: usize,
    tolerance: f64,
    decomposition: &[f64],
    right_side: &[f64],
    answer: &mut [f64],
) -> Answer {
    if m > LARGEST || n > LARGEST {
        return told(1, 0, 0);
    }
    if has_u == 0 {
        return told(3, 0, 0);
    }
    if has_vt == 0 {
        return told(4, 0, 0);
    }
    if right_side.len() != m {
        return told(5, 0, 0);
    }
    if bad_tolerance(tolerance) {
        return told(11, 0, 0);
    }
    let wanted = [(decomposition.len(), decomposition_length(m, n, has_u, has_vt)), (answer.len(), n)];
    if let Some(place) = first_wrong(&wanted) {
        return told(6, place, 0);
    }
    answer.fill(0.0);
    if let Some(place) = first_bad(decomposition) {
        return told(7, place, 0);
    }
    if let Some(place) = first_bad(right_side) {
        return told(7, decomposition.len() + place, 0);
    }
    let r = m.min(n);
    let (values, factors) = decomposition.split_at(r);
    let (u, v_t) = factors.split_at(m * r);
    let mut c = vec![0.0; r];
    for k in 0..r {
        if values[k] > tolerance {
            let mut acc = 0.0;
            for i in 0..m {
                acc += u[i * r + k] * right_side[i];
            }
            c[k] = acc / values[k];
        }
    }
    for j in 0..n {
        let mut acc = 0.0;
        for k in 0..r {
            acc += v_t[k * n + j] * c[k];
        }
        answer[j] = acc;
    }
    marked(answer)
}

pub fn pseudo_inverse(
    m: usize,
    n: usize,
    has_u: usize,
    has_vt: usize,
    tolerance: f64,
    decomposition: &[f64],
    answer: &mut [f64],
) -> Answer {
    if m > LARGEST || n > LARGEST {
        return told(1, 0, 0);
    }
    if has_u == 0 {
        return told(3, 0, 0);
    }
    if has_vt == 0 {
        return told(4, 0, 0);
    }
    if bad_tolerance(tolerance) {
        return told(11, 0, 0);
    }
    let wanted = [(decomposition.len(), decomposition_length(m, n, has_u, has_vt)), (answer.len(), n * m)];
    if let Some(place) = first_wrong(&wanted) {
        return told(6, place, 0);
    }
    answer.fill(0.0);
    if let Some(place) = first_bad(decomposition) {
        return told(7, place, 0);
    }
    let r = m.min(n);
    let (values, factors) = decomposition.split_at(r);
    let (u, v_t) = factors.split_at(m * r);
    let mut sinv = vec![0.0; r];
    for k in 0..r {
        sinv[k] = if values[k] > tolerance { 1.0 / values[k] } else { 0.0 };
    }
    for j in 0..n {
        for i in 0..m {
            let mut acc = 0.0;
            for k in 0..r {
                acc += v_t[k * n + j] * sinv[k] * u[i * r + k];
            }
            answer[j * m + i] = acc;
        }
    }
    marked(answer)
}

/// Mark 2 of `solve` and `pseudo_inverse`.
fn marked(answer: &mut [f64]) -> Answer {
    match mark(2, 0, &[answer]) {
        None => told(0, 0, 0),
        Some(refusal) => {
            answer.fill(0.0);
            refusal
        }
    }
}

// ---------------------------------------------------------------- qr_q

pub fn qr_q(m: usize, k: usize, matrix: &[f64], answer: &mut [f64]) -> Answer {
    if m > LARGEST || k > LARGEST {
        return told(1, 0, 0);
    }
    if let Some(place) = first_wrong(&[(matrix.len(), m * k), (answer.len(), m * k)]) {
        return told(6, place, 0);
    }
    answer.fill(0.0);
    if let Some(place) = first_bad(matrix) {
        return told(7, place, 0);
    }
    let mut q = matrix.to_vec();
    for j in 0..k {
        for _pass in 0..2 {
            for i in 0..j {
                let mut proj = 0.0;
                for row in 0..m {
                    proj += q[row * k + i] * q[row * k + j];
                }
                for row in 0..m {
                    q[row * k + j] -= proj * q[row * k + i];
                }
            }
        }
        let mut norm_sq: f64 = 0.0;
        for row in 0..m {
            norm_sq += q[row * k + j] * q[row * k + j];
        }
        let norm = norm_sq.sqrt();
        if !norm.is_finite() {
            return Answer { answer: class(norm), place: j, index: j, count: 0 };
        }
        for row in 0..m {
            if norm > f64::EPSILON {
                q[row * k + j] /= norm;
            } else {
                q[row * k + j] = 0.0;
            }
        }
    }
    answer.copy_from_slice(&q);
    told(0, 0, 0)
}
