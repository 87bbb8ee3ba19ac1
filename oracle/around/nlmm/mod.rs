//! The modules in scope, and stand-ins for what they name and is not published with them.

pub mod block_solve;
pub mod fit;
pub mod formula;
pub mod mean;
pub mod mean_fn;
pub mod re_cov;
pub mod ready;
pub mod self_start;
pub mod ssasymp;
pub mod ssfpl;
pub mod sslogis;
pub mod ssmicmen;

/// The curves that are out of scope, whose source is not at hand. No operation reaches them.
macro_rules! absent {
    ($($module:ident $function:ident ($($argument:ident),*) -> $answer:ty;)*) => {$(
        pub mod $module {
            pub fn $function($($argument: f64),*) -> $answer {
                let _ = ($($argument),*);
                unreachable!("out of scope")
            }
        }
    )*};
}

absent! {
    ssasympoff ssasympoff_eval(a, b, c, x) -> (f64, Vec<f64>);
    ssasymporig ssasymporig_eval(a, b, x) -> (f64, Vec<f64>);
    ssbiexp ssbiexp_eval(a, b, c, d, x) -> (f64, Vec<f64>);
    ssgompertz ssgompertz_eval(a, b, c, x) -> (f64, Vec<f64>);
    sspower sspower_eval(a, b, c, x) -> (f64, f64, f64, f64);
    ssweibull ssweibull_eval(a, b, c, d, x) -> (f64, Vec<f64>);
}
