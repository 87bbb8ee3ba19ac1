//! The direction of given blocks; a child of block_solve.rs, whose fields are private.

use super::BlockNormal;
use crate::operations::matrix;
use ndarray::Array1;
use text::Blocks;

/// The part of a list that is group g's, and each group has `length` floats.
fn of_group(list: &[f64], g: usize, length: usize) -> &[f64] {
    &list[g * length..(g + 1) * length]
}

pub fn direction(blocks: &Blocks, damping: f64) -> Option<Vec<f64>> {
    let (p, k) = (blocks.p, blocks.k);
    let mut normal = BlockNormal::new(p, k, blocks.groups);
    normal.fixed = matrix(p, p, &blocks.fixed);
    normal.fixed_rhs = Array1::from_vec(blocks.fixed_rhs.clone());
    for g in 0..blocks.groups {
        normal.cross[g] = matrix(p, k, of_group(&blocks.cross, g, p * k));
        normal.random[g] = matrix(k, k, of_group(&blocks.random, g, k * k));
        normal.random_rhs[g] = Array1::from_vec(of_group(&blocks.random_rhs, g, k).to_vec());
    }
    normal.solve(damping).map(|direction| direction.to_vec())
}
