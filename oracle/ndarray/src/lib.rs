//! A small stand-in for the parts of ndarray that the copied text uses, for f64 alone.
//!
//! Matrix products start from 0 and add in rising index, as document 01 says; ndarray's own product is not
//! at hand, so both variants use this one. Matrices are held row by row.

use std::ops::{AddAssign, Bound, Index, IndexMut, Mul, RangeBounds, Sub, SubAssign};

#[macro_export]
macro_rules! s {
    ($range:expr) => {
        $range
    };
}

#[derive(Clone, Debug)]
pub struct Array1<T> {
    values: Vec<T>,
}

#[derive(Clone, Debug)]
pub struct Array2<T> {
    rows: usize,
    columns: usize,
    values: Vec<T>,
}

/// A part of a vector, read.
pub struct Part<'a>(&'a [f64]);

/// A part of a vector, written.
pub struct PartMut<'a>(&'a mut [f64]);

/// A column of a matrix, written.
pub struct ColumnMut<'a> {
    of: &'a mut Array2<f64>,
    column: usize,
}

/// The left operand times `R`.
pub trait Dot<R> {
    type Output;
    fn product(&self, right: &R) -> Self::Output;
}

fn ends(range: impl RangeBounds<usize>, length: usize) -> (usize, usize) {
    let from = match range.start_bound() {
        Bound::Included(&i) => i,
        Bound::Excluded(&i) => i + 1,
        Bound::Unbounded => 0,
    };
    let to = match range.end_bound() {
        Bound::Included(&i) => i + 1,
        Bound::Excluded(&i) => i,
        Bound::Unbounded => length,
    };
    (from, to)
}

/// The sum of products, from 0, in rising index.
fn sum_of_products(count: usize, product: impl Fn(usize) -> f64) -> f64 {
    let mut sum = 0.0;
    for i in 0..count {
        sum += product(i);
    }
    sum
}

impl Array1<f64> {
    pub fn zeros(length: usize) -> Self {
        Self::from_vec(vec![0.0; length])
    }

    pub fn from_vec(values: Vec<f64>) -> Self {
        Self { values }
    }

    pub fn len(&self) -> usize {
        self.values.len()
    }

    pub fn is_empty(&self) -> bool {
        self.values.is_empty()
    }

    pub fn iter(&self) -> std::slice::Iter<'_, f64> {
        self.values.iter()
    }

    pub fn to_vec(&self) -> Vec<f64> {
        self.values.clone()
    }

    pub fn slice(&self, range: impl RangeBounds<usize>) -> Part<'_> {
        let (from, to) = ends(range, self.len());
        Part(&self.values[from..to])
    }

    pub fn slice_mut(&mut self, range: impl RangeBounds<usize>) -> PartMut<'_> {
        let (from, to) = ends(range, self.len());
        PartMut(&mut self.values[from..to])
    }
}

impl PartMut<'_> {
    pub fn assign(&mut self, from: &Array1<f64>) {
        self.0.copy_from_slice(&from.values);
    }
}

impl ColumnMut<'_> {
    pub fn assign(&mut self, from: &Array1<f64>) {
        assert_eq!(self.of.rows, from.len());
        for row in 0..self.of.rows {
            self.of[[row, self.column]] = from[row];
        }
    }
}

impl Part<'_> {
    pub fn to_owned(&self) -> Array1<f64> {
        Array1::from_vec(self.0.to_vec())
    }
}

impl Array2<f64> {
    pub fn zeros(shape: (usize, usize)) -> Self {
        Self::from_elem(shape, 0.0)
    }

    pub fn from_elem((rows, columns): (usize, usize), value: f64) -> Self {
        Self {
            rows,
            columns,
            values: vec![value; rows * columns],
        }
    }

    pub fn nrows(&self) -> usize {
        self.rows
    }

    pub fn ncols(&self) -> usize {
        self.columns
    }

    /// The entries row by row.
    pub fn entries(&self) -> &[f64] {
        &self.values
    }

    pub fn entries_mut(&mut self) -> &mut [f64] {
        &mut self.values
    }

    pub fn row(&self, row: usize) -> Part<'_> {
        Part(&self.values[row * self.columns..(row + 1) * self.columns])
    }

    pub fn column_mut(&mut self, column: usize) -> ColumnMut<'_> {
        ColumnMut { of: self, column }
    }

    pub fn diag(&self) -> Array1<f64> {
        Array1::from_vec((0..self.rows).map(|i| self[[i, i]]).collect())
    }

    /// The transpose.
    pub fn t(&self) -> Self {
        let mut turned = Self::zeros((self.columns, self.rows));
        for i in 0..self.rows {
            for j in 0..self.columns {
                turned[[j, i]] = self[[i, j]];
            }
        }
        turned
    }

    pub fn dot<R>(&self, right: &R) -> <Self as Dot<R>>::Output
    where
        Self: Dot<R>,
    {
        self.product(right)
    }
}

impl Dot<Array2<f64>> for Array2<f64> {
    type Output = Array2<f64>;
    fn product(&self, right: &Array2<f64>) -> Array2<f64> {
        assert_eq!(self.columns, right.rows);
        let mut out = Array2::zeros((self.rows, right.columns));
        for i in 0..self.rows {
            for j in 0..right.columns {
                out[[i, j]] = sum_of_products(self.columns, |l| self[[i, l]] * right[[l, j]]);
            }
        }
        out
    }
}

impl Dot<Part<'_>> for Array2<f64> {
    type Output = Array1<f64>;
    fn product(&self, right: &Part<'_>) -> Array1<f64> {
        assert_eq!(self.columns, right.0.len());
        Array1::from_vec(
            (0..self.rows)
                .map(|i| sum_of_products(self.columns, |l| self[[i, l]] * right.0[l]))
                .collect(),
        )
    }
}

impl Dot<Array1<f64>> for Array2<f64> {
    type Output = Array1<f64>;
    fn product(&self, right: &Array1<f64>) -> Array1<f64> {
        self.product(&Part(&right.values))
    }
}

impl<T> Index<usize> for Array1<T> {
    type Output = T;
    fn index(&self, at: usize) -> &T {
        &self.values[at]
    }
}

impl<T> IndexMut<usize> for Array1<T> {
    fn index_mut(&mut self, at: usize) -> &mut T {
        &mut self.values[at]
    }
}

impl<T> Index<[usize; 2]> for Array2<T> {
    type Output = T;
    fn index(&self, [row, column]: [usize; 2]) -> &T {
        assert!(row < self.rows && column < self.columns);
        &self.values[row * self.columns + column]
    }
}

impl<T> IndexMut<[usize; 2]> for Array2<T> {
    fn index_mut(&mut self, [row, column]: [usize; 2]) -> &mut T {
        assert!(row < self.rows && column < self.columns);
        &mut self.values[row * self.columns + column]
    }
}

impl SubAssign<&Array1<f64>> for Array1<f64> {
    fn sub_assign(&mut self, right: &Array1<f64>) {
        assert_eq!(self.len(), right.len());
        for (a, b) in self.values.iter_mut().zip(&right.values) {
            *a -= b;
        }
    }
}

impl AddAssign<&Array2<f64>> for Array2<f64> {
    fn add_assign(&mut self, right: &Array2<f64>) {
        assert_eq!((self.rows, self.columns), (right.rows, right.columns));
        for (a, b) in self.values.iter_mut().zip(&right.values) {
            *a += b;
        }
    }
}

impl SubAssign<&Array2<f64>> for Array2<f64> {
    fn sub_assign(&mut self, right: &Array2<f64>) {
        assert_eq!((self.rows, self.columns), (right.rows, right.columns));
        for (a, b) in self.values.iter_mut().zip(&right.values) {
            *a -= b;
        }
    }
}

impl Sub for Array1<f64> {
    type Output = Array1<f64>;
    fn sub(mut self, right: Array1<f64>) -> Array1<f64> {
        self -= &right;
        self
    }
}

impl Mul<Array1<f64>> for f64 {
    type Output = Array1<f64>;
    fn mul(self, mut right: Array1<f64>) -> Array1<f64> {
        for v in &mut right.values {
            *v = self * *v;
        }
        right
    }
}
