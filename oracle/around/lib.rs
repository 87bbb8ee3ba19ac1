//! The published Rust of the part in scope, as copy_source.py copies it, and what stands around it.
#![allow(dead_code, unused_imports)]

pub mod hooks;
pub mod nlmm;
pub mod operations;
pub mod quadrature;
pub mod replaced;
