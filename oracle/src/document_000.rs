/// Eigenvalues and eigenvectors of a real symmetric matrix
///
/// `eigenvectors` stores each unit eigenvector as a **column**: column `j` is the eigenvector for
/// `eigenvalues[j]`. Eigenvalues come back in ascending order
pub(crate) struct SymmetricEigen {
    /// Eigenvalues in ascending order
    pub eigenvalues: Array1<f64>,
    /// Unit eigenvectors stored as columns, aligned with `eigenvalues`
    pub eigenvectors: Array2<f64>,
}

/// Computes the eigenvalues and eigenvectors of a real symmetric matrix
///
/// The function assumes `a` is symmetric and does not check or enforce that property. It uses
/// Householder tridiagonalization (`tred2`) followed by the implicit-shift QL algorithm
/// (`tql2`), the classic EISPACK/JAMA routines
///
/// # Parameters
///
/// - `a` - Square symmetric matrix (`n x n`)
///
/// # Returns
///
/// - `SymmetricEigen` - Eigenvalues in ascending order with their unit eigenvectors as columns
///
/// # Panics
///
/// Panics in debug builds if `a` is not square. Index access can also panic for a rectangular matrix.
pub(crate) fn symmetric_eigen(a: &Array2<f64>) -> SymmetricEigen {
    let n = a.nrows();
    debug_assert_eq!(n, a.ncols(), "symmetric_eigen requires a square matrix");

    if n == 0 {
        return SymmetricEigen {
            eigenvalues: Array1::zeros(0),
            eigenvectors: Array2::zeros((0, 0)),
        };
    }

    // `v` starts as a copy of `a` (row-major flat buffer) and ends up holding the eigenvectors
    let mut v = vec![0.0_f64; n * n];
    for i in 0..n {
        for j in 0..n {
            v[i * n + j] = a[[i, j]];
        }
    }
    let mut d = vec![0.0_f64; n];
    let mut e = vec![0.0_f64; n];

    tred2(n, &mut v, &mut d, &mut e);
    tql2(n, &mut v, &mut d, &mut e);

    let eigenvalues = Array1::from_vec(d);
    let eigenvectors = Array2::from_shape_fn((n, n), |(i, j)| v[i * n + j]);
    SymmetricEigen {
        eigenvalues,
        eigenvectors,
    }
}

/// Householder reduction of a symmetric matrix to tridiagonal form (EISPACK `tred2`)
///
/// On entry `v` holds the symmetric matrix in row-major order. On exit `v` holds the orthogonal
/// transformation, `d` the diagonal of the tridiagonal matrix, and `e` its subdiagonal
fn tred2(n: usize, v: &mut [f64], d: &mut [f64], e: &mut [f64]) {
    for j in 0..n {
        d[j] = v[(n - 1) * n + j];
    }

    // Householder reduction to tridiagonal form
    for i in (1..n).rev() {
        let mut scale = 0.0;
        let mut h = 0.0;
        for &dk in d.iter().take(i) {
            scale += dk.abs();
        }
        if scale == 0.0 {
            e[i] = d[i - 1];
            for j in 0..i {
                d[j] = v[(i - 1) * n + j];
                v[i * n + j] = 0.0;
                v[j * n + i] = 0.0;
            }
        } else {
            // Generate the Householder vector
            for dk in d.iter_mut().take(i) {
                *dk /= scale;
                h += *dk * *dk;
            }
            let mut f = d[i - 1];
            let mut g = h.sqrt();
            if f > 0.0 {
                g = -g;
            }
            e[i] = scale * g;
            h -= f * g;
            d[i - 1] = f - g;
            for ej in e.iter_mut().take(i) {
                *ej = 0.0;
            }

            // Apply the similarity transformation to the remaining columns
            for j in 0..i {
                f = d[j];
                v[j * n + i] = f;
                g = e[j] + v[j * n + j] * f;
                for k in (j + 1)..=(i - 1) {
                    g += v[k * n + j] * d[k];
                    e[k] += v[k * n + j] * f;
                }
                e[j] = g;
            }
            f = 0.0;
            for j in 0..i {
                e[j] /= h;
                f += e[j] * d[j];
            }
            let hh = f / (h + h);
            for j in 0..i {
                e[j] -= hh * d[j];
            }
            for j in 0..i {
                f = d[j];
                g = e[j];
                for k in j..=(i - 1) {
                    v[k * n + j] -= f * e[k] + g * d[k];
                }
                d[j] = v[(i - 1) * n + j];
                v[i * n + j] = 0.0;
            }
        }
        d[i] = h;
    }

    // Accumulate the transformations
    for i in 0..(n - 1) {
        v[(n - 1) * n + i] = v[i * n + i];
        v[i * n + i] = 1.0;
        let h = d[i + 1];
        if h != 0.0 {
            for k in 0..=i {
                d[k] = v[k * n + (i + 1)] / h;
            }
            for j in 0..=i {
                let mut g = 0.0;
                for k in 0..=i {
                    g += v[k * n + (i + 1)] * v[k * n + j];
                }
                for k in 0..=i {
                    v[k * n + j] -= g * d[k];
                }
            }
        }
        for k in 0..=i {
            v[k * n + (i + 1)] = 0.0;
        }
    }
    for j in 0..n {
        d[j] = v[(n - 1) * n + j];
        v[(n - 1) * n + j] = 0.0;
    }
    v[(n - 1) * n + (n - 1)] = 1.0;
    e[0] = 0.0;
}

/// Implicit-shift QL iteration with accumulated eigenvectors (EISPACK `tql2`)
///
/// On entry `d`/`e` hold the diagonal/subdiagonal of the tridiagonal matrix and `v` the orthogonal
/// transform from [`tred2`]. On exit `d` holds the eigenvalues (sorted ascending) and the columns
/// of `v` the corresponding eigenvectors
// `c2`, `c3`, and `s2` carry values across loop iterations. The final write to each is dead
// code by design.
#[allow(unused_assignments)]
fn tql2(n: usize, v: &mut [f64], d: &mut [f64], e: &mut [f64]) {
    for i in 1..n {
        e[i - 1] = e[i];
    }
    e[n - 1] = 0.0;

    let mut f = 0.0_f64;
    let mut tst1 = 0.0_f64;
    let eps = 2.0_f64.powi(-52);
    for l in 0..n {
        // Find the smallest subdiagonal element to split on
        tst1 = tst1.max(d[l].abs() + e[l].abs());
        let mut m = l;
        while m < n {
            if e[m].abs() <= eps * tst1 {
                break;
            }
            m += 1;
        }

        // If `m == l`, `d[l]` is already an eigenvalue. Otherwise, the loop below iterates.
        if m > l {
            loop {
                // Compute the implicit shift
                let mut g = d[l];
                let mut p = (d[l + 1] - g) / (2.0 * e[l]);
                let mut r = p.hypot(1.0);
                if p < 0.0 {
                    r = -r;
                }
                d[l] = e[l] / (p + r);
                d[l + 1] = e[l] * (p + r);
                let dl1 = d[l + 1];
                let mut h = g - d[l];
                for di in d.iter_mut().take(n).skip(l + 2) {
                    *di -= h;
                }
                f += h;

                // Implicit QL transformation
                p = d[m];
                let mut c = 1.0;
                let mut c2 = c;
                let mut c3 = c;
                let el1 = e[l + 1];
                let mut s = 0.0;
                let mut s2 = 0.0;
                let mut i = m;
                while i > l {
                    i -= 1;
                    c3 = c2;
                    c2 = c;
                    s2 = s;
                    g = c * e[i];
                    h = c * p;
                    r = p.hypot(e[i]);
                    e[i + 1] = s * r;
                    s = e[i] / r;
                    c = p / r;
                    p = c * d[i] - s * g;
                    d[i + 1] = h + s * (c * g + s * d[i]);
                    // Accumulate the eigenvector rotation
                    for k in 0..n {
                        h = v[k * n + (i + 1)];
                        v[k * n + (i + 1)] = s * v[k * n + i] + c * h;
                        v[k * n + i] = c * v[k * n + i] - s * h;
                    }
                }
                p = -s * s2 * c3 * el1 * e[l] / dl1;
                e[l] = s * p;
                d[l] = c * p;

                // Convergence check
                if e[l].abs() <= eps * tst1 {
                    break;
                }
            }
        }
        d[l] += f;
        e[l] = 0.0;
    }

    // Sort eigenvalues (ascending) and reorder the eigenvector columns to match
    for i in 0..(n - 1) {
        let mut k = i;
        let mut p = d[i];
        for (j, &dj) in d.iter().enumerate().take(n).skip(i + 1) {
            if dj < p {
                k = j;
                p = dj;
            }
        }
        if k != i {
            d[k] = d[i];
            d[i] = p;
            for row in 0..n {
                v.swap(row * n + i, row * n + k);
            }
        }
    }
}

/// Singular value decomposition of a real matrix
///
/// Singular values are non-negative and come back in descending order. When requested, `u` is the
/// `m x r` matrix of left singular vectors and `v_t` is the `r x n` matrix of right singular
/// vectors transposed, where `r = min(m, n)`. Together they satisfy `A ~= U * sigma * V^T`
pub(crate) struct Svd {
    /// Singular values in descending order, length `r = min(m, n)`
    pub singular_values: Array1<f64>,
    /// Left singular vectors as columns (`m x r`), present when `compute_u` is true.
    /// Only the least-squares solve and pseudo-inverse paths need `u`
    #[cfg_attr(not(feature = "machine_learning"), allow(dead_code))]
    pub u: Option<Array2<f64>>,
    /// Right singular vectors transposed (`r x n`), present when `compute_v` is true
    pub v_t: Option<Array2<f64>>,
}

#[cfg(feature = "machine_learning")]
impl Svd {
    /// Solves the least-squares problem `min ||A x - b||` using the decomposition. It returns
    /// the minimum-norm solution and treats singular values at or below `tol` as 0
    ///
    /// The decomposition must include both `u` and `v_t`
    ///
    /// # Parameters
    ///
    /// - `b` - Right-hand side vector with 1 value per matrix row.
    /// - `tol` - Singular-value threshold for the pseudo-inverse.
    ///
    /// # Returns
    ///
    /// - `Result<Array1<f64>, Error>` - The minimum-norm least-squares solution.
    ///
    /// # Errors
    ///
    /// - [`Error::Computation`] - If `u` or `v_t` were not computed, or the right-hand side
    ///   length does not match the row count of `A`
    pub(crate) fn solve(&self, b: &Array1<f64>, tol: f64) -> Result<Array1<f64>, Error> {
        let u = self
            .u
            .as_ref()
            .ok_or_else(|| Error::computation("SVD solve requires the U factor"))?;
        let v_t = self
            .v_t
            .as_ref()
            .ok_or_else(|| Error::computation("SVD solve requires the V^T factor"))?;
        let m = u.nrows();
        let r = self.singular_values.len();
        let n = v_t.ncols();
        if b.len() != m {
            return Err(Error::computation(
                "SVD solve: right-hand side length does not match the number of rows",
            ));
        }

        // c = sigma^+ * U^T * b
        let mut c = Array1::<f64>::zeros(r);
        for k in 0..r {
            let sv = self.singular_values[k];
            if sv > tol {
                let mut acc = 0.0;
                for i in 0..m {
                    acc += u[[i, k]] * b[i];
                }
                c[k] = acc / sv;
            }
        }
        // x = V * c = (v_t)^T * c
        let mut x = Array1::<f64>::zeros(n);
        for j in 0..n {
            let mut acc = 0.0;
            for k in 0..r {
                acc += v_t[[k, j]] * c[k];
            }
            x[j] = acc;
        }
        Ok(x)
    }

    /// Builds the Moore-Penrose pseudo-inverse `A^+ = V * sigma^+ * U^T` (`n x m`). It treats
    /// singular values at or below `tol` as 0
    ///
    /// The decomposition must include both `u` and `v_t`
    ///
    /// # Parameters
    ///
    /// - `tol` - Singular-value threshold for the pseudo-inverse.
    ///
    /// # Returns
    ///
    /// - `Result<Array2<f64>, Error>` - The pseudo-inverse matrix.
    ///
    /// # Errors
    ///
    /// - [`Error::Computation`] - If `u` or `v_t` were not computed
    pub(crate) fn pseudo_inverse(&self, tol: f64) -> Result<Array2<f64>, Error> {
        let u = self
            .u
            .as_ref()
            .ok_or_else(|| Error::computation("SVD pseudo_inverse requires the U factor"))?;
        let v_t = self
            .v_t
            .as_ref()
            .ok_or_else(|| Error::computation("SVD pseudo_inverse requires the V^T factor"))?;
        let m = u.nrows();
        let r = self.singular_values.len();
        let n = v_t.ncols();

        let mut sinv = Array1::<f64>::zeros(r);
        for k in 0..r {
            let sv = self.singular_values[k];
            sinv[k] = if sv > tol { 1.0 / sv } else { 0.0 };
        }

        // A^+[j, i] = sum_k v_t[k, j] * sinv[k] * u[i, k]
        let mut pinv = Array2::<f64>::zeros((n, m));
        for j in 0..n {
            for i in 0..m {
                let mut acc = 0.0;
                for k in 0..r {
                    acc += v_t[[k, j]] * sinv[k] * u[[i, k]];
                }
                pinv[[j, i]] = acc;
            }
        }
        Ok(pinv)
    }
}

/// Computes the singular value decomposition of a real matrix via one-sided Jacobi
///
/// The Jacobi sweeps run on whichever of `A` or `A^T` is taller, so the working matrix always
/// has at least as many rows as columns. The function maps the result back to `A`'s orientation.
/// Singular values come back in descending order with optional `U` (`m x r`) and `V^T` (`r x n`)
///
/// # Parameters
///
/// - `a` - Input matrix (`m x n`)
/// - `compute_u` - Whether to return the left singular vectors `U`
/// - `compute_v` - Whether to return the right singular vectors (as `V^T`)
///
/// # Returns
///
/// - `Svd` - Singular values and the requested singular vectors.
pub(crate) fn svd(a: &Array2<f64>, compute_u: bool, compute_v: bool) -> Svd {
    let m = a.nrows();
    let n = a.ncols();

    // `u_like` is the left factor with shape (rows of `A`) x `r`. `v_like` is the right factor
    // with shape (columns of `A`) x `r`. Both have columns aligned to the still-unsorted
    // singular values in `s`.
    let (s, u_like, v_like) = if m >= n {
        jacobi_svd_tall(a)
    } else {
        // A = (A^T)^T. If A^T = U2 * sigma * V2^T, then A = V2 * sigma * U2^T, so U_A = V2 and
        // V_A = U2.
        let at = a.t().to_owned();
        let (s, u2, v2) = jacobi_svd_tall(&at);
        (s, v2, u2)
    };

    let (s_sorted, u_sorted, v_sorted) = sort_svd_descending(s, u_like, v_like);
    Svd {
        singular_values: s_sorted,
        u: if compute_u { Some(u_sorted) } else { None },
        v_t: if compute_v {
            Some(v_sorted.t().to_owned())
        } else {
            None
        },
    }
}

/// One-sided Jacobi SVD for a matrix with at least as many rows as columns (`m >= n`)
///
/// Returns `(singular_values, u, v)` (unsorted) with `A = U diag(s) V^T`, where `u` is `m x n`
/// with orthonormal columns and `v` is `n x n` orthogonal
fn jacobi_svd_tall(a: &Array2<f64>) -> (Array1<f64>, Array2<f64>, Array2<f64>) {
    let m = a.nrows();
    let n = a.ncols();

    let mut u = a.to_owned(); // m x n, rotated toward orthogonal columns in place
    let mut v = Array2::<f64>::eye(n); // accumulates the right rotations

    let eps = f64::EPSILON;
    let max_sweeps = 60;

    for _sweep in 0..max_sweeps {
        let mut changed = false;
        for p in 0..n {
            for q in (p + 1)..n {
                // 2x2 sub-Gram of columns p, q
                let mut alpha = 0.0; // ||u_p||^2
                let mut beta = 0.0; // ||u_q||^2
                let mut gamma = 0.0; // u_p * u_q
                for i in 0..m {
                    let up = u[[i, p]];
                    let uq = u[[i, q]];
                    alpha += up * up;
                    beta += uq * uq;
                    gamma += up * uq;
                }

                // Skip if the columns are already orthogonal to working precision
                if gamma == 0.0 || gamma.abs() <= eps * (alpha * beta).sqrt() {
                    continue;
                }
                changed = true;

                // Jacobi rotation that diagonalizes [[alpha, gamma], [gamma, beta]]
                let zeta = (beta - alpha) / (2.0 * gamma);
                let sign = if zeta >= 0.0 { 1.0 } else { -1.0 };
                let t = sign / (zeta.abs() + (1.0 + zeta * zeta).sqrt());
                let c = 1.0 / (1.0 + t * t).sqrt();
                let s = c * t;

                // Apply the rotation to the columns of U and V
                for i in 0..m {
                    let up = u[[i, p]];
                    let uq = u[[i, q]];
                    u[[i, p]] = c * up - s * uq;
                    u[[i, q]] = s * up + c * uq;
                }
                for i in 0..n {
                    let vp = v[[i, p]];
                    let vq = v[[i, q]];
                    v[[i, p]] = c * vp - s * vq;
                    v[[i, q]] = s * vp + c * vq;
                }
            }
        }
        if !changed {
            break;
        }
    }

    // Singular values are the column norms of the rotated U. Normalize it to get orthonormal U.
    let mut s = Array1::<f64>::zeros(n);
    for j in 0..n {
        let mut norm_sq = 0.0;
        for i in 0..m {
            norm_sq += u[[i, j]] * u[[i, j]];
        }
        let norm = norm_sq.sqrt();
        s[j] = norm;
        if norm > 0.0 {
            for i in 0..m {
                u[[i, j]] /= norm;
            }
        }
    }
    (s, u, v)
}

/// Reorders an SVD by descending singular value, permuting the aligned `U`/`V` columns to match
fn sort_svd_descending(
    s: Array1<f64>,
    u: Array2<f64>,
    v: Array2<f64>,
) -> (Array1<f64>, Array2<f64>, Array2<f64>) {
    let r = s.len();
    let mut order: Vec<usize> = (0..r).collect();
    order.sort_by(|&i, &j| s[j].partial_cmp(&s[i]).unwrap_or(std::cmp::Ordering::Equal));

    let s_sorted = Array1::from_shape_fn(r, |k| s[order[k]]);
    let u_sorted = Array2::from_shape_fn((u.nrows(), r), |(i, k)| u[[i, order[k]]]);
    let v_sorted = Array2::from_shape_fn((v.nrows(), r), |(i, k)| v[[i, order[k]]]);
    (s_sorted, u_sorted, v_sorted)
}

/// Returns an orthonormal basis `Q` for the column space of `a` (same shape as `a`)
///
/// Uses modified Gram-Schmidt with 1 reorthogonalization pass. Dependent columns become columns filled with 0.
///
/// # Parameters
///
/// - `a` - Input matrix whose columns span the target subspace (`m x k`, `m >= k`)
///
/// # Returns
///
/// - `Array2<f64>` - Orthonormal columns, with columns filled with 0 for dependent directions.
pub(crate) fn qr_q(a: &Array2<f64>) -> Array2<f64> {
    let m = a.nrows();
    let k = a.ncols();
    let mut q = a.to_owned();

    for j in 0..k {
        // 2 modified Gram-Schmidt passes against the already-orthonormal columns 0..j
        for _pass in 0..2 {
            for i in 0..j {
                let mut proj = 0.0;
                for row in 0..m {
                    proj += q[[row, i]] * q[[row, j]];
                }
                for row in 0..m {
                    q[[row, j]] -= proj * q[[row, i]];
                }
            }
        }
        // Normalize column j
        let mut norm_sq = 0.0;
        for row in 0..m {
            norm_sq += q[[row, j]] * q[[row, j]];
        }
        let norm = norm_sq.sqrt();
        if norm > f64::EPSILON {
            for row in 0..m {
                q[[row, j]] /= norm;
            }
        } else {
            for row in 0..m {
                q[[row, j]] = 0.0;
            }
        }
    }
    q
}

