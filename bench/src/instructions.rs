//! Machine instructions per call, counted by callgrind: the program runs itself as `count` under it, once for each
//! side, and takes off what the loop without a call executes.

use crate::cases::{line, Row};
use crate::fail;
use crate::sides::{pass, Pass};
use std::io::Write;
use std::process::{Command, Stdio};
use text::Case;

/// callgrind collects between the entry and the return of this function alone.
#[inline(never)]
#[no_mangle]
extern "C" fn bench_counted(pass: &mut Pass) {
    pass();
}

/// Answers the cases until allocator and linker have settled, then once more inside `bench_counted`.
pub fn count(side: &str, operation: &str, cases: &[Case]) {
    let Some(mut pass) = pass(side, operation, cases) else {
        fail(&format!("no {operation} on the side {side}"));
    };
    for _ in 0..2 {
        pass();
    }
    bench_counted(std::hint::black_box(&mut pass));
}

/// Whether valgrind is there.
pub fn available() -> bool {
    let mut command = Command::new("valgrind");
    let said = command.arg("--version").stdout(Stdio::null()).status();
    said.is_ok_and(|status| status.success())
}

/// The instructions of one pass over the cases.
fn collected(side: &str, row: &Row) -> Option<f64> {
    let _ = pass(side, row.operation, &row.cases)?;
    let itself = std::env::current_exe().expect("the program has a path");
    let mut child = Command::new("valgrind")
        .args(["--tool=callgrind", "--toggle-collect=bench_counted"])
        .arg("--callgrind-out-file=/dev/null")
        .arg(itself)
        .args(["count", side, row.operation])
        .stdin(Stdio::piped())
        .stdout(Stdio::null())
        .stderr(Stdio::piped())
        .spawn()
        .unwrap_or_else(|fault| fail(&format!("valgrind: {fault}")));
    let mut input = child.stdin.take().expect("it is piped");
    for case in &row.cases {
        writeln!(input, "{}", line(case)).unwrap_or_else(|fault| fail(&format!("valgrind: {fault}")));
    }
    drop(input);
    let output = child.wait_with_output().expect("the child was started");
    let said = String::from_utf8_lossy(&output.stderr);
    let count = said
        .lines()
        .find_map(|line| line.split_once("Collected :")?.1.trim().parse().ok());
    match count {
        Some(count) if output.status.success() => Some(count),
        _ => fail(&format!("no count of {} on the side {side}:\n{said}", row.label)),
    }
}

/// Per call, of each of these sides; none where it does not have the operation.
pub fn per_call(names: &[&str], row: &Row) -> Vec<Option<f64>> {
    let alone = collected("empty", row).unwrap_or(0.0);
    let one = |name: &&str| Some((collected(name, row)? - alone) / row.cases.len() as f64);
    names.iter().map(one).collect()
}
