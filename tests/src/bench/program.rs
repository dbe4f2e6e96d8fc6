//! The bench program: where it stands, and how it is run on an input that is handed to it in pieces.

use std::env;
use std::io::{Read, Write};
use std::ops::Range;
use std::os::fd::AsRawFd;
use std::path::{Path, PathBuf};
use std::process::{Child, ChildStdin, ChildStdout, Command, Stdio};
use std::sync::mpsc;
use std::thread;
use std::time::{Duration, Instant};

/// The time in which a run must end.
const LIMIT: Duration = Duration::from_secs(30);

/// The most bytes that are taken of what the program writes.
const MOST: u64 = 1 << 24;

/// The longest wait for a piece to be read before the next one is written.
const PATIENCE: Duration = Duration::from_millis(5);

/// The request that tells how many bytes wait in a pipe.
const FIONREAD: u64 = 0x541b;

extern "C" {
    /// As the C library has it.
    fn ioctl(file: i32, request: u64, ...) -> i32;
}

/// How an input is cut: the sizes of the pieces, taken over and over, and the numbers of those pieces that the program
/// is to have read before the next one is written.
pub struct Pieces {
    pub sizes: Vec<usize>,
    pub awaited: Range<usize>,
}

/// The file of the program: the one that KUMIROVE_BENCH names, or crates/bench/out/bench of the repository.
pub fn file() -> Result<PathBuf, String> {
    let made = || PathBuf::from(env!("CARGO_MANIFEST_DIR")).join("../crates/bench/out/bench");
    let file = env::var_os("KUMIROVE_BENCH").map_or_else(made, PathBuf::from);
    match file.is_file() {
        true => Ok(file),
        false => Err(format!("there is no program {}: make it by tools/bench", file.display())),
    }
}

/// Waits until the pipe is empty, but not for long.
fn await_empty(pipe: &ChildStdin) {
    let since = Instant::now();
    let mut waiting: i32 = 1;
    while waiting > 0 && since.elapsed() < PATIENCE {
        thread::yield_now();
        // SAFETY: the request stores one int.
        if unsafe { ioctl(pipe.as_raw_fd(), FIONREAD, &mut waiting as *mut i32) } != 0 {
            return;
        }
    }
}

/// Writes an input in pieces and closes the pipe. A program that reads no further ends it early.
fn write(mut pipe: ChildStdin, mut input: &[u8], pieces: &Pieces) {
    for (number, &size) in pieces.sizes.iter().cycle().enumerate() {
        let (piece, rest) = input.split_at(size.min(input.len()));
        if piece.is_empty() || pipe.write_all(piece).is_err() {
            return;
        }
        if pieces.awaited.contains(&number) {
            await_empty(&pipe);
        }
        input = rest;
    }
}

/// Reads what the program writes, up to the limit.
fn read(pipe: ChildStdout) -> Result<Vec<u8>, String> {
    let mut output = Vec::new();
    match pipe.take(MOST).read_to_end(&mut output) {
        Ok(_) => Ok(output),
        Err(fault) => Err(format!("what the program writes can't be read: {fault}")),
    }
}

/// Writes the input to a program and reads its output at the same time; ends a program that takes too long.
fn exchange(child: &mut Child, input: &[u8], pieces: &Pieces) -> Result<Vec<u8>, String> {
    let (Some(stdin), Some(stdout)) = (child.stdin.take(), child.stdout.take()) else {
        return Err("the program has no pipes".into());
    };
    thread::scope(|scope| {
        let (sender, receiver) = mpsc::channel();
        scope.spawn(|| write(stdin, input, pieces));
        scope.spawn(move || sender.send(read(stdout)));
        receiver.recv_timeout(LIMIT).unwrap_or_else(|_| {
            let ended = child.kill().map_or_else(|fault| fault.to_string(), |()| "ended it".into());
            Err(format!("the program still ran after {} s: {ended}", LIMIT.as_secs()))
        })
    })
}

/// Runs the program on an input; hands back what it writes. Fails unless it ends in time and with status 0.
pub fn run(file: &Path, input: &[u8], pieces: &Pieces) -> Result<Vec<u8>, String> {
    let mut child = Command::new(file)
        .stdin(Stdio::piped())
        .stdout(Stdio::piped())
        .spawn()
        .map_err(|fault| format!("{} can't be started: {fault}", file.display()))?;
    let output = exchange(&mut child, input, pieces);
    let status = child.wait().map_err(|fault| format!("the program can't be waited for: {fault}"))?;
    match status.success() {
        true => output,
        false => Err(output.err().unwrap_or_else(|| format!("the program ends with {status}"))),
    }
}
