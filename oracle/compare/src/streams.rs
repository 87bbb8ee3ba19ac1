//! Runs a program that prints cases and two that answer them, and hands over the answers line by line.

use std::io::{BufRead, BufReader, Read, Write};
use std::process::{Child, Command, Stdio};
use std::sync::mpsc::{sync_channel, Receiver, SyncSender};
use std::sync::Arc;
use std::thread;

const BLOCK: usize = 1 << 18;
const BLOCKS_AHEAD: usize = 8;

fn shell(command: &str) -> Command {
    let mut run = Command::new("sh");
    run.arg("-c").arg(format!("exec {command}"));
    run
}

/// The lines that a program prints, read by a thread of its own in blocks, as they come.
struct Answers {
    name: String,
    child: Child,
    blocks: Receiver<Vec<u8>>,
    rest: Vec<u8>,
    from: usize,
}

impl Answers {
    fn start(command: &str) -> (Self, SyncSender<Arc<Vec<u8>>>) {
        let mut child = shell(command)
            .stdin(Stdio::piped())
            .stdout(Stdio::piped())
            .spawn()
            .unwrap_or_else(|fault| fail(&format!("{command}: {fault}")));
        let mut input = child.stdin.take().expect("piped");
        let (cases, more) = sync_channel::<Arc<Vec<u8>>>(BLOCKS_AHEAD);
        thread::spawn(move || {
            for block in more {
                if input.write_all(&block).is_err() {
                    break; // the program has ended; its missing lines are noticed
                }
            }
        });
        let mut output = child.stdout.take().expect("piped");
        let (answers, blocks) = sync_channel(BLOCKS_AHEAD);
        thread::spawn(move || loop {
            let mut block = vec![0; BLOCK];
            match output.read(&mut block) {
                Ok(0) | Err(_) => break,
                Ok(length) => block.truncate(length),
            }
            if answers.send(block).is_err() {
                break;
            }
        });
        let answers = Answers {
            name: command.to_string(),
            child,
            blocks,
            rest: Vec::new(),
            from: 0,
        };
        (answers, cases)
    }

    /// The next line, without its end; none after the last.
    fn line(&mut self) -> Option<&[u8]> {
        loop {
            if let Some(length) = self.rest[self.from..].iter().position(|&byte| byte == b'\n') {
                let start = self.from;
                self.from += length + 1;
                return Some(&self.rest[start..start + length]);
            }
            self.rest.drain(..self.from);
            self.from = 0;
            match self.blocks.recv() {
                Ok(block) => self.rest.extend_from_slice(&block),
                Err(_) => return None,
            }
        }
    }
}

pub fn fail(message: &str) -> ! {
    println!("{message}");
    std::process::exit(1);
}

/// Calls `each` with every case's number from 1 and both answer lines. A program that ends early or badly is fatal.
pub fn run(cases: &str, left: &str, right: &str, mut each: impl FnMut(u64, &[u8], &[u8])) -> u64 {
    let mut maker = shell(cases)
        .stdout(Stdio::piped())
        .spawn()
        .unwrap_or_else(|fault| fail(&format!("{cases}: {fault}")));
    let mut made = BufReader::with_capacity(BLOCK, maker.stdout.take().expect("piped"));
    let (mut left, to_left) = Answers::start(left);
    let (mut right, to_right) = Answers::start(right);
    let (counts, lines) = sync_channel::<(u64, Arc<Vec<u8>>)>(2 * BLOCKS_AHEAD);
    thread::spawn(move || loop {
        let mut block = Vec::with_capacity(BLOCK);
        let mut count = 0;
        while block.len() < BLOCK / 2 && made.read_until(b'\n', &mut block).is_ok_and(|read| read > 0) {
            count += 1;
        }
        if count == 0 {
            break;
        }
        let block = Arc::new(block);
        // A program that has ended takes nothing; its missing lines are noticed.
        let _ = to_left.send(block.clone());
        let _ = to_right.send(block.clone());
        if counts.send((count, block)).is_err() {
            break;
        }
    });

    let mut number = 0;
    for (count, block) in lines {
        for i in 0..count {
            number += 1;
            let (Some(one), Some(other)) = (left.line(), right.line()) else {
                let case = block.split(|&byte| byte == b'\n').nth(i as usize).unwrap_or(&[]);
                fail(&format!(
                    "one of the programs ended without an answer to line {number}:\n  {}",
                    String::from_utf8_lossy(case)
                ));
            };
            each(number, one, other);
        }
    }
    if !maker.wait().is_ok_and(|status| status.success()) {
        fail(&format!("{cases} failed"));
    }
    for mut side in [left, right] {
        if side.line().is_some() {
            fail(&format!("{} printed more lines than it was given", side.name));
        }
        if !side.child.wait().is_ok_and(|status| status.success()) {
            fail(&format!("{} failed", side.name));
        }
    }
    number
}
