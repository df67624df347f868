//! Document 000's own functions, their text unchanged, over the stand-in for ndarray: once with the platform's
//! `hypot`, and with the name `hypot` replaced, when this is built, by that of edition 1, `hypot01`, and of edition 2, `hypot02`.

use crate::ndarray::Array1;
use std::cell::RefCell;
use std::hint::black_box;

macro_rules! calls {
    () => {
        fn matrix(rows: usize, cols: usize, cells: &[f64]) -> Array2<f64> {
            assert_eq!(rows * cols, cells.len());
            Array2::from_shape_fn((rows, cols), |(i, j)| cells[i * cols + j])
        }

        fn cells(a: &Array2<f64>) -> Vec<f64> {
            let mut out = Vec::with_capacity(a.nrows() * a.ncols());
            for i in 0..a.nrows() {
                for j in 0..a.ncols() {
                    out.push(a[[i, j]]);
                }
            }
            out
        }

        fn values(a: &Array1<f64>) -> Vec<f64> {
            (0..a.len()).map(|i| a[i]).collect()
        }

        /// `symmetric_eigen`, its answer laid out as the scope's result array.
        pub fn eigen_cells(n: usize, a: &[f64]) -> Vec<f64> {
            let done = symmetric_eigen(&matrix(n, n, a));
            [values(&done.eigenvalues), cells(&done.eigenvectors)].concat()
        }

        /// `svd`, its answer laid out as the scope's result array.
        pub fn svd_cells(m: usize, n: usize, u: bool, vt: bool, a: &[f64]) -> Vec<f64> {
            let done = svd(&matrix(m, n, a), u, vt);
            let part = |factor: Option<Array2<f64>>| factor.map_or(Vec::new(), |f| cells(&f));
            [values(&done.singular_values), part(done.u), part(done.v_t)].concat()
        }

        fn decomposition(m: usize, n: usize, a: &[f64]) -> Svd {
            let r = m.min(n);
            Svd {
                singular_values: Array1::from_vec(a[..r].to_vec()),
                u: Some(matrix(m, r, &a[r..r + m * r])),
                v_t: Some(matrix(r, n, &a[r + m * r..])),
            }
        }

        /// `Svd::solve` of a decomposition laid out as the scope's.
        pub fn solve_cells(m: usize, n: usize, tol: f64, a: &[f64], b: &[f64]) -> Vec<f64> {
            values(&decomposition(m, n, a).solve(&Array1::from_vec(b.to_vec()), tol).ok().unwrap())
        }

        /// `Svd::pseudo_inverse` of a decomposition laid out as the scope's.
        pub fn pseudo_inverse_cells(m: usize, n: usize, tol: f64, a: &[f64]) -> Vec<f64> {
            cells(&decomposition(m, n, a).pseudo_inverse(tol).ok().unwrap())
        }

        /// `qr_q` on rows.
        pub fn qr_q_cells(m: usize, k: usize, a: &[f64]) -> Vec<f64> {
            cells(&qr_q(&matrix(m, k, a)))
        }

        /// `top_eigenpairs_lanczos` from a start vector: the values, and the vectors one behind the other.
        pub fn lanczos_cells(n: usize, k: usize, a: &[f64], start: &[f64]) -> (Vec<f64>, Vec<f64>) {
            super::draw(start);
            let (found, vectors) = top_eigenpairs_lanczos(&matrix(n, n, a), k, 0).ok().unwrap();
            (found, vectors.iter().flat_map(values).collect())
        }

        // The same calls for measuring: the inputs are laid out once, before.

        pub fn eigen_call(n: usize, a: &[f64]) -> impl FnMut() {
            let a = matrix(n, n, a);
            move || drop(black_box(symmetric_eigen(black_box(&a))))
        }

        pub fn lanczos_call(n: usize, k: usize, a: &[f64], start: &[f64]) -> impl FnMut() {
            let a = matrix(n, n, a);
            super::draw(start);
            move || drop(black_box(top_eigenpairs_lanczos(black_box(&a), k, 0)))
        }

        pub fn svd_call(m: usize, n: usize, a: &[f64]) -> impl FnMut() {
            let a = matrix(m, n, a);
            move || drop(black_box(svd(black_box(&a), true, true)))
        }

        pub fn solve_call(m: usize, n: usize, tol: f64, a: &[f64], b: &[f64]) -> impl FnMut() {
            let (svd, b) = (decomposition(m, n, a), Array1::from_vec(b.to_vec()));
            move || drop(black_box(black_box(&svd).solve(black_box(&b), tol)))
        }

        pub fn pseudo_inverse_call(m: usize, n: usize, tol: f64, a: &[f64]) -> impl FnMut() {
            let svd = decomposition(m, n, a);
            move || drop(black_box(black_box(&svd).pseudo_inverse(tol)))
        }

        pub fn qr_q_call(m: usize, k: usize, a: &[f64]) -> impl FnMut() {
            let a = matrix(m, k, a);
            move || drop(black_box(qr_q(black_box(&a))))
        }
    };
}

/// The one constructor of document 000's error that these functions call.
pub struct Error;

impl Error {
    fn computation(_text: &str) -> Error {
        Error
    }
    fn not_converged(_text: &str) -> Error {
        Error
    }
}

// The start vector that is drawn, in place of a random one.
thread_local! {
    static DRAWN: RefCell<Vec<f64>> = const { RefCell::new(Vec::new()) };
}

fn draw(start: &[f64]) {
    DRAWN.set(start.to_vec());
}

pub struct StdRng;

impl StdRng {
    fn seed_from_u64(_seed: u64) -> StdRng {
        StdRng
    }
}

/// The lines of document 000's own, but for where the vector comes from.
fn random_unit_vector(n: usize, _rng: &mut StdRng) -> Array1<f64> {
    let mut v = Array1::from_vec(DRAWN.with_borrow(|drawn| drawn.clone()));
    assert_eq!(v.len(), n);
    let norm = v.dot(&v).sqrt();
    if norm <= f64::EPSILON {
        v = Array1::from_shape_fn(n, |_| 1.0 / (n as f64).sqrt());
    } else {
        v /= norm;
    }
    v
}

pub mod platform {
    use super::{Error, StdRng, black_box, random_unit_vector};
    use crate::ndarray::{Array1, Array2, Parallelism, matvec};
    include!("document_000.rs");
    include!("document_000_lanczos.rs");
    calls!();
}

pub mod by_01 {
    use super::{Error, StdRng, black_box, random_unit_vector};
    use crate::hypot::Hypot;
    use crate::ndarray::{Array1, Array2, Parallelism, matvec};
    include!(env!("DOCUMENT_000_HYPOT01"));
    include!("document_000_lanczos.rs");
    calls!();
}

pub mod by_02 {
    use super::{Error, StdRng, black_box, random_unit_vector};
    use crate::hypot::Hypot;
    use crate::ndarray::{Array1, Array2, Parallelism, matvec};
    include!(env!("DOCUMENT_000_HYPOT02"));
    include!("document_000_lanczos.rs");
    calls!();
}
