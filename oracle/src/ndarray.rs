//! The part of ndarray that document 000's functions use, and no more. A matrix keeps its strides, and a transposed
//! copy keeps the order in memory, as ndarray's does; an index is checked against the shape once.

use std::ops::{Div, DivAssign, Index, IndexMut};

#[derive(Clone)]
pub struct Array1<T> {
    data: Vec<T>,
}

impl Array1<f64> {
    pub fn zeros(len: usize) -> Self {
        Array1 { data: vec![0.0; len] }
    }
    pub fn from_vec(data: Vec<f64>) -> Self {
        Array1 { data }
    }
    pub fn from_shape_fn(len: usize, f: impl FnMut(usize) -> f64) -> Self {
        Array1 { data: (0..len).map(f).collect() }
    }
    pub fn len(&self) -> usize {
        self.data.len()
    }
    /// From index 0 on, starting at +0.0, as request 12 has it: ndarray's own sums in eight parts.
    pub fn dot(&self, other: &Self) -> f64 {
        self.data.iter().zip(&other.data).fold(0.0, |sum, (x, y)| sum + *x * *y)
    }
    pub fn scaled_add(&mut self, by: f64, other: &Self) {
        self.data.iter_mut().zip(&other.data).for_each(|(x, y)| *x += by * *y);
    }
}

/// As it is called, with the sums of `dot`: the gate for threads has nothing behind it.
pub enum Parallelism {
    Rayon(usize),
}

pub fn matvec(a: &Array2<f64>, x: &Array1<f64>, parallelism: Parallelism) -> Array1<f64> {
    let Parallelism::Rayon(_) = parallelism;
    assert_eq!(a.strides[1], 1);
    let row = |i: usize| &a.data[i * a.strides[0]..][..a.shape[1]];
    Array1::from_shape_fn(a.shape[0], |i| row(i).iter().zip(&x.data).fold(0.0, |sum, (x, y)| sum + *x * *y))
}

impl DivAssign<f64> for Array1<f64> {
    fn div_assign(&mut self, by: f64) {
        self.data.iter_mut().for_each(|x| *x /= by);
    }
}

impl Div<f64> for Array1<f64> {
    type Output = Self;
    fn div(mut self, by: f64) -> Self {
        self /= by;
        self
    }
}

impl Index<usize> for Array1<f64> {
    type Output = f64;
    #[inline(always)]
    fn index(&self, i: usize) -> &f64 {
        &self.data[i]
    }
}

impl IndexMut<usize> for Array1<f64> {
    #[inline(always)]
    fn index_mut(&mut self, i: usize) -> &mut f64 {
        &mut self.data[i]
    }
}

#[derive(Clone)]
pub struct Array2<T> {
    data: Vec<T>,
    shape: [usize; 2],
    strides: [usize; 2],
}

/// The transposed view that `t` gives.
pub struct Transposed<'a>(&'a Array2<f64>);

impl Transposed<'_> {
    pub fn to_owned(&self) -> Array2<f64> {
        let Array2 { data, shape, strides } = self.0.clone();
        Array2 { data, shape: [shape[1], shape[0]], strides: [strides[1], strides[0]] }
    }
}

impl Array2<f64> {
    pub fn zeros((rows, cols): (usize, usize)) -> Self {
        Array2 { data: vec![0.0; rows * cols], shape: [rows, cols], strides: [cols, 1] }
    }
    pub fn eye(n: usize) -> Self {
        let mut out = Self::zeros((n, n));
        for i in 0..n {
            out[[i, i]] = 1.0;
        }
        out
    }
    pub fn from_shape_fn((rows, cols): (usize, usize), mut f: impl FnMut((usize, usize)) -> f64) -> Self {
        let mut out = Self::zeros((rows, cols));
        for i in 0..rows {
            for j in 0..cols {
                out[[i, j]] = f((i, j));
            }
        }
        out
    }
    pub fn nrows(&self) -> usize {
        self.shape[0]
    }
    pub fn ncols(&self) -> usize {
        self.shape[1]
    }
    pub fn t(&self) -> Transposed<'_> {
        Transposed(self)
    }
    #[inline(always)]
    fn place(&self, [i, j]: [usize; 2]) -> usize {
        assert!(i < self.shape[0] && j < self.shape[1], "ndarray: index out of bounds");
        i * self.strides[0] + j * self.strides[1]
    }
}

impl Index<[usize; 2]> for Array2<f64> {
    type Output = f64;
    #[inline(always)]
    fn index(&self, at: [usize; 2]) -> &f64 {
        let place = self.place(at);
        // SAFETY: an index inside the shape stands inside the data, which holds rows * cols numbers.
        unsafe { self.data.get_unchecked(place) }
    }
}

impl IndexMut<[usize; 2]> for Array2<f64> {
    #[inline(always)]
    fn index_mut(&mut self, at: [usize; 2]) -> &mut f64 {
        let place = self.place(at);
        // SAFETY: as above.
        unsafe { self.data.get_unchecked_mut(place) }
    }
}
