//! Compares what the archive's operations cost with what the published Rust's cost, on the same cases, and prints the
//! tables of docs/PERFORMANCE.md.
//!
//!     bench tables SECONDS TEXT < cases   each row whose label has TEXT timed for SECONDS (0: no times)
//!     bench cases LABEL                   the cases of a row of the named shapes
//!     bench count SIDE OPERATION < cases  for `tables`, which runs it under callgrind
//!
//! README.md says what is included.

mod cases;
mod clock;
mod instructions;
mod shapes;
mod sides;
mod tables;
mod times;

fn fail(message: &str) -> ! {
    eprintln!("bench: {message}");
    std::process::exit(2);
}

fn main() {
    let words: Vec<String> = std::env::args().skip(1).collect();
    let words: Vec<&str> = words.iter().map(String::as_str).collect();
    match words[..] {
        ["tables", seconds, having] => match seconds.parse() {
            Ok(seconds) => tables::print(seconds, having),
            Err(_) => fail(&format!("not a number: '{seconds}'")),
        },
        ["cases", label] => cases::print(label),
        ["count", side, operation] => instructions::count(side, operation, &cases::all_read()),
        _ => fail("bench tables SECONDS TEXT | cases LABEL | count SIDE OPERATION"),
    }
}
