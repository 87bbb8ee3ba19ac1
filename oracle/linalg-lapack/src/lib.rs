//! A stand-in for ndarray_linalg over LAPACK: dgetrf, dgetrs, dgetri and dpotrf.
//!
//! As ndarray_linalg does with matrices held row by row, LAPACK is handed the buffer as it stands, which it reads
//! as the transpose: a solve asks for the transposed system, and a lower factor for the upper one. A positive
//! `info` (a zero pivot, a radicand not above zero) is an error.

use ndarray::{Array1, Array2};
use std::ffi::c_char;

#[derive(Debug)]
pub struct NoResult;

pub type Result<T> = std::result::Result<T, NoResult>;

pub enum UPLO {
    Lower,
}

#[link(name = "lapack")]
#[link(name = "blas")]
extern "C" {
    fn dgetrf_(m: *const i32, n: *const i32, a: *mut f64, lda: *const i32, pivots: *mut i32, info: *mut i32);
    fn dgetrs_(
        trans: *const c_char,
        n: *const i32,
        nrhs: *const i32,
        a: *const f64,
        lda: *const i32,
        pivots: *const i32,
        b: *mut f64,
        ldb: *const i32,
        info: *mut i32,
        trans_length: usize,
    );
    fn dgetri_(
        n: *const i32,
        a: *mut f64,
        lda: *const i32,
        pivots: *const i32,
        work: *mut f64,
        lwork: *const i32,
        info: *mut i32,
    );
    fn dpotrf_(uplo: *const c_char, n: *const i32, a: *mut f64, lda: *const i32, info: *mut i32, uplo_length: usize);
}

fn checked(info: i32) -> Result<()> {
    assert!(info >= 0, "LAPACK refuses argument {}", -info);
    if info == 0 {
        Ok(())
    } else {
        Err(NoResult)
    }
}

pub struct Factorized {
    factors: Array2<f64>,
    pivots: Vec<i32>,
}

pub trait Factorize {
    fn factorize(&self) -> Result<Factorized>;
}

impl Factorize for Array2<f64> {
    fn factorize(&self) -> Result<Factorized> {
        let n = self.nrows() as i32;
        let mut factors = self.clone();
        let mut pivots = vec![0; self.nrows()];
        let mut info = 0;
        unsafe {
            dgetrf_(
                &n,
                &n,
                factors.entries_mut().as_mut_ptr(),
                &n,
                pivots.as_mut_ptr(),
                &mut info,
            );
        }
        checked(info)?;
        Ok(Factorized { factors, pivots })
    }
}

pub trait Solve {
    fn solve(&self, right: &Array1<f64>) -> Result<Array1<f64>>;
}

impl Solve for Factorized {
    fn solve(&self, right: &Array1<f64>) -> Result<Array1<f64>> {
        let n = self.pivots.len() as i32;
        let mut x = right.to_vec();
        let mut info = 0;
        unsafe {
            dgetrs_(
                b"T".as_ptr().cast(),
                &n,
                &1,
                self.factors.entries().as_ptr(),
                &n,
                self.pivots.as_ptr(),
                x.as_mut_ptr(),
                &n,
                &mut info,
                1,
            );
        }
        checked(info)?;
        Ok(Array1::from_vec(x))
    }
}

impl Solve for Array2<f64> {
    fn solve(&self, right: &Array1<f64>) -> Result<Array1<f64>> {
        self.factorize()?.solve(right)
    }
}

pub trait Inverse {
    fn inv(&self) -> Result<Array2<f64>>;
}

impl Inverse for Array2<f64> {
    fn inv(&self) -> Result<Array2<f64>> {
        let Factorized { mut factors, pivots } = self.factorize()?;
        let n = pivots.len() as i32;
        let mut work = vec![0.0; pivots.len()];
        let mut info = 0;
        unsafe {
            dgetri_(
                &n,
                factors.entries_mut().as_mut_ptr(),
                &n,
                pivots.as_ptr(),
                work.as_mut_ptr(),
                &n,
                &mut info,
            );
        }
        checked(info)?;
        Ok(factors)
    }
}

pub trait Cholesky {
    fn cholesky(&self, part: UPLO) -> Result<Array2<f64>>;
}

impl Cholesky for Array2<f64> {
    fn cholesky(&self, UPLO::Lower: UPLO) -> Result<Array2<f64>> {
        let n = self.nrows() as i32;
        let mut l = self.clone();
        let mut info = 0;
        unsafe {
            dpotrf_(b"U".as_ptr().cast(), &n, l.entries_mut().as_mut_ptr(), &n, &mut info, 1);
        }
        checked(info)?;
        for row in 0..l.nrows() {
            for column in row + 1..l.ncols() {
                l[[row, column]] = 0.0;
            }
        }
        Ok(l)
    }
}
