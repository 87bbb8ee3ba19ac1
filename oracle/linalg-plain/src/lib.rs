//! A stand-in for ndarray_linalg by document 01's rules ("The direction").

use ndarray::{Array1, Array2};

/// There is none: a zero pivot, or a radicand that is not above zero.
#[derive(Debug)]
pub struct NoResult;

pub type Result<T> = std::result::Result<T, NoResult>;

pub enum UPLO {
    Lower,
}

/// Elimination from the diagonal entry: a lower row replaces the pivot only where its size compares greater, an
/// exactly zero pivot gives none, each lower row in rising order subtracts (its entry / pivot) times the pivot row.
/// Back substitution runs from the last row, products subtracted in rising column, then the division.
fn eliminate(matrix: &Array2<f64>, right: &Array1<f64>) -> Result<Array1<f64>> {
    let n = matrix.nrows();
    let mut a: Vec<Vec<f64>> = (0..n).map(|i| (0..n).map(|j| matrix[[i, j]]).collect()).collect();
    let mut b: Vec<f64> = right.to_vec();
    for column in 0..n {
        let mut pivot = column;
        for row in column + 1..n {
            if a[row][column].abs() > a[pivot][column].abs() {
                pivot = row;
            }
        }
        if a[pivot][column] == 0.0 {
            return Err(NoResult);
        }
        a.swap(column, pivot);
        b.swap(column, pivot);
        for row in column + 1..n {
            let factor = a[row][column] / a[column][column];
            for j in column..n {
                a[row][j] -= factor * a[column][j];
            }
            b[row] -= factor * b[column];
        }
    }
    let mut x = vec![0.0; n];
    for row in (0..n).rev() {
        let mut rest = b[row];
        for j in row + 1..n {
            rest -= a[row][j] * x[j];
        }
        x[row] = rest / a[row][row];
    }
    Ok(Array1::from_vec(x))
}

/// A matrix whose elimination meets no zero pivot.
pub struct Factorized(Array2<f64>);

pub trait Factorize {
    fn factorize(&self) -> Result<Factorized>;
}

impl Factorize for Array2<f64> {
    fn factorize(&self) -> Result<Factorized> {
        eliminate(self, &Array1::zeros(self.nrows()))?;
        Ok(Factorized(self.clone()))
    }
}

pub trait Solve {
    fn solve(&self, right: &Array1<f64>) -> Result<Array1<f64>>;
}

impl Solve for Array2<f64> {
    fn solve(&self, right: &Array1<f64>) -> Result<Array1<f64>> {
        eliminate(self, right)
    }
}

impl Solve for Factorized {
    fn solve(&self, right: &Array1<f64>) -> Result<Array1<f64>> {
        eliminate(&self.0, right)
    }
}

pub trait Inverse {
    fn inv(&self) -> Result<Array2<f64>>;
}

impl Inverse for Array2<f64> {
    /// Solves the unit columns.
    fn inv(&self) -> Result<Array2<f64>> {
        let n = self.nrows();
        let mut out = Array2::zeros((n, n));
        for column in 0..n {
            let mut unit = Array1::zeros(n);
            unit[column] = 1.0;
            out.column_mut(column).assign(&eliminate(self, &unit)?);
        }
        Ok(out)
    }
}

pub trait Cholesky {
    fn cholesky(&self, part: UPLO) -> Result<Array2<f64>>;
}

impl Cholesky for Array2<f64> {
    /// Column by column over the lower part, products subtracted in rising index before the root or the division.
    fn cholesky(&self, UPLO::Lower: UPLO) -> Result<Array2<f64>> {
        let n = self.nrows();
        let mut l = Array2::zeros((n, n));
        for column in 0..n {
            let mut radicand = self[[column, column]];
            for i in 0..column {
                radicand -= l[[column, i]] * l[[column, i]];
            }
            if !(radicand > 0.0) {
                return Err(NoResult);
            }
            l[[column, column]] = radicand.sqrt();
            for row in column + 1..n {
                let mut rest = self[[row, column]];
                for i in 0..column {
                    rest -= l[[row, i]] * l[[column, i]];
                }
                l[[row, column]] = rest / l[[column, column]];
            }
        }
        Ok(l)
    }
}

#[cfg(test)]
mod tests {
    use super::*;

    fn matrix(rows: [[f64; 2]; 2]) -> Array2<f64> {
        let mut out = Array2::zeros((2, 2));
        for i in 0..2 {
            for j in 0..2 {
                out[[i, j]] = rows[i][j];
            }
        }
        out
    }

    fn solve(rows: [[f64; 2]; 2], right: [f64; 2]) -> Option<Vec<f64>> {
        let right = Array1::from_vec(right.to_vec());
        matrix(rows).solve(&right).ok().map(|x| x.to_vec())
    }

    #[test]
    fn a_tie_keeps_the_first_row() {
        // The later row would give 0.2666666666666668.
        let x = solve([[3.0, 8.0], [-3.0, 7.0]], [4.0, 2.0]).unwrap();
        assert_eq!(x[0], 0.2666666666666666);
    }

    #[test]
    fn zero_pivots_give_none_in_every_column() {
        assert!(solve([[0.0, 1.0], [-0.0, 1.0]], [1.0, 1.0]).is_none());
        assert!(solve([[1.0, 1.0], [1.0, 1.0]], [1.0, 1.0]).is_none());
        assert!(solve([[0.0, 1.0], [1.0, 0.0]], [2.0, 3.0]) == Some(vec![3.0, 2.0]));
    }

    #[test]
    fn a_zero_entry_still_multiplies() {
        // 0 / 1 times infinity is a NaN.
        let x = solve([[1.0, f64::INFINITY], [0.0, 1.0]], [1.0, 1.0]).unwrap();
        assert!(x[1].is_nan());
    }

    #[test]
    fn a_leading_nan_stays_and_an_infinite_pivot_divides_to_zero() {
        assert!(solve([[f64::NAN, 1.0], [2.0, 1.0]], [1.0, 1.0]).unwrap()[1].is_nan());
        assert_eq!(
            solve([[f64::INFINITY, 0.0], [1.0, 1.0]], [1.0, 1.0]),
            Some(vec![0.0, 1.0])
        );
    }

    #[test]
    fn the_factor_is_of_the_lower_part() {
        let l = matrix([[4.0, 99.0], [2.0, 10.0]]).cholesky(UPLO::Lower).unwrap();
        assert_eq!(l.entries(), &[2.0, 0.0, 1.0, 3.0]);
        assert!(matrix([[1.0, 0.0], [1.0, 1.0]]).cholesky(UPLO::Lower).is_err());
        assert!(matrix([[f64::NAN, 0.0], [0.0, 1.0]]).cholesky(UPLO::Lower).is_err());
        assert!(matrix([[f64::INFINITY, 0.0], [0.0, 1.0]]).cholesky(UPLO::Lower).is_ok());
    }

    #[test]
    fn the_inverse_solves_unit_columns() {
        let inverse = matrix([[4.0, 2.0], [2.0, 2.0]]).inv().unwrap();
        assert_eq!(inverse.entries(), &[0.5, -0.5, -0.5, 1.0]);
        assert!(matrix([[1.0, 2.0], [2.0, 4.0]]).inv().is_err());
    }
}
