//! Answers cases by the Rust with std's exp, ln, max and min, and LAPACK.

fn main() {
    text::serve(unreplaced::operations::answer, |_, _| {});
}
