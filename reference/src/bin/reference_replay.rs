//! Plays a trace on a module fresh from reset and writes its log to standard output.
//!
//! The trace comes from the file named by the first argument, else from standard input. It may be
//! of any length: it is read and played piece by piece.

use reference::{play, Module, Refusal, ANSWER_LENGTH};
use std::fs::File;
use std::io::{self, Read, Write};
use std::process::ExitCode;

const PIECE: usize = 1 << 16;

/// Where and why a trace stopped.
struct Stop {
    refusal: u8,
    record: u64,
    byte: u64,
}

fn main() -> ExitCode {
    match run() {
        Ok(None) => ExitCode::SUCCESS,
        Ok(Some(stop)) => {
            eprintln!(
                "refusal {} at record {}, byte {}",
                stop.refusal, stop.record, stop.byte
            );
            ExitCode::FAILURE
        }
        Err(error) => {
            eprintln!("{error}");
            ExitCode::from(2)
        }
    }
}

fn run() -> io::Result<Option<Stop>> {
    let output = io::stdout().lock();
    match std::env::args_os().nth(1) {
        Some(path) => replay(File::open(path)?, output),
        None => replay(io::stdin().lock(), output),
    }
}

/// Plays `input` to its end or to a stop.
fn replay(mut input: impl Read, mut output: impl Write) -> io::Result<Option<Stop>> {
    let mut module = Module::new();
    let mut trace = vec![0; PIECE];
    let mut log = vec![0; PIECE * ANSWER_LENGTH];
    let mut kept = 0;
    let (mut record, mut byte) = (0, 0);
    loop {
        let fresh = read_some(&mut input, &mut trace[kept..])?;
        let length = kept + fresh;
        let played = play(&mut module, &trace[..length], &mut log);
        output.write_all(&log[..played.written])?;
        record += (played.written / ANSWER_LENGTH) as u64;
        byte += played.read as u64;
        trace.copy_within(played.read..length, 0);
        kept = length - played.read;
        let waits_for_more = played.stop == 0 || played.stop == Refusal::Cut as u8;
        if fresh == 0 || !waits_for_more {
            output.flush()?;
            return Ok((played.stop != 0).then_some(Stop {
                refusal: played.stop,
                record,
                byte,
            }));
        }
    }
}

/// Reads at least a byte, unless the input has ended.
fn read_some(input: &mut impl Read, buffer: &mut [u8]) -> io::Result<usize> {
    loop {
        match input.read(buffer) {
            Err(error) if error.kind() == io::ErrorKind::Interrupted => {}
            result => return result,
        }
    }
}
