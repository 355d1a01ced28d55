//! Plays the same traces through `replay` and through the Rust implementation of `reference/`, in turns, and prints how long each took.
//!
//! usage: traces REPLAY REFERENCE FOLDER

use std::fs::{self, File};
use std::path::Path;
use std::process::{Command, ExitCode, Stdio};
use std::time::{Duration, Instant};

/// Turns for each program; the best one counts.
const TURNS: usize = 7;

/// Holds of the longest kind in a trace.
const HOLDS: usize = 500;

const RESET: [u8; 1] = [1];

fn hold(pins: u8, rxd: u8, clocks: u16) -> Vec<u8> {
    let c = clocks.to_be_bytes();
    vec![2, pins, rxd, c[0], c[1]]
}

/// A record of kind 05.
fn long_hold(pins: u8, rxd: u8, clocks: u32) -> Vec<u8> {
    [vec![5, pins, rxd], clocks.to_be_bytes().to_vec()].concat()
}

fn read(width: u8, offset: u16) -> Vec<u8> {
    let o = offset.to_be_bytes();
    vec![3, 0x80 | width, o[0], o[1]]
}

fn write(width: u8, offset: u16, value: u32) -> Vec<u8> {
    let mut record = vec![4, 0x80 | width];
    record.extend(offset.to_be_bytes());
    record.extend(value.to_be_bytes());
    record
}

/// A small generator of numbers, so that every run plays the same traces.
struct Random(u64);

impl Random {
    fn below(&mut self, n: u64) -> u64 {
        self.0 = self.0.wrapping_mul(6364136223846793005).wrapping_add(1442695040888963407);
        (self.0 >> 33) % n
    }
}

/// Receiver and transmitter on, SCBR 4.
fn serial_on() -> Vec<u8> {
    [RESET.to_vec(), write(2, 0x08, 4), write(2, 0x0A, 0x000C)].concat()
}

/// The queue on, wrapping over its sixteen entries of random words.
fn queue_on(random: &mut Random) -> Vec<u8> {
    let mut trace = write(2, 0x16, 0x7B7E);
    for i in 0..16 {
        trace.extend(write(2, 0x120 + 2 * i, random.below(65_536) as u32));
        trace.extend(write(1, 0x140 + i, [0x0E, 0x4E, 0x8E][random.below(3) as usize]));
    }
    trace.extend(write(2, 0x1C, 0x4F00));
    trace.extend(write(2, 0x18, 0x8104));
    trace.extend(write(2, 0x1A, 0x8404));
    trace
}

/// The queue on, wrapping over sixteen entries of 16,352 clocks each: 16 bits at the slowest rate, and the longest delay.
fn slow_queue_on() -> Vec<u8> {
    let mut trace = write(2, 0x16, 0x7B7E);
    for i in 0..16 {
        trace.extend(write(1, 0x140 + i, 0x6E));
    }
    trace.extend(write(2, 0x1C, 0x4F00));
    trace.extend(write(2, 0x18, 0x80FF));
    trace.extend(write(2, 0x1A, 0x8000));
    trace
}

/// What was set up, then holds of 65,535 clocks at one level of RXD.
fn held(mut trace: Vec<u8>, rxd: u8) -> Vec<u8> {
    for _ in 0..2_000 {
        trace.extend(hold(0x7F, rxd, 65_535));
    }
    trace
}

/// A quiet line.
fn quiet() -> Vec<u8> {
    held(serial_on(), 1)
}

/// A line held at zero.
fn zero() -> Vec<u8> {
    held(serial_on(), 0)
}

/// A queue that wraps, on a quiet line.
fn wrapping() -> Vec<u8> {
    held([serial_on(), queue_on(&mut Random(3))].concat(), 1)
}

/// A queue that was halted, on a quiet line.
fn halted() -> Vec<u8> {
    held([serial_on(), queue_on(&mut Random(3)), write(2, 0x1E, 0x0100)].concat(), 1)
}

/// Characters on RXD and TXD, status then data read after each, while the queue wraps over its sixteen entries.
fn busy() -> Vec<u8> {
    let mut random = Random(1);
    let mut trace = [serial_on(), queue_on(&mut random)].concat();
    for k in 0..15_000 {
        let character = random.below(256) as u32;
        let frame = 0x200 | character << 1;
        for bit in 0..10 {
            trace.extend(hold(0x7F, (frame >> bit & 1) as u8, 128));
        }
        trace.extend(read(2, 0x0C));
        trace.extend(read(2, 0x0E));
        if k % 3 == 0 {
            trace.extend(write(2, 0x0E, character));
        }
    }
    trace
}

/// A million short records: a polling loop of short holds, reads and a few writes.
fn short() -> Vec<u8> {
    let mut random = Random(2);
    let mut trace = serial_on();
    for _ in 0..1_000_000 {
        trace.extend(match random.below(8) {
            0..=3 => hold(0xFF, 1, 8 + random.below(56) as u16),
            4 | 5 => read(2, 0x0C),
            6 => read(2, 0x0E),
            _ => write(2, 0x120 + 2 * random.below(16) as u16, random.below(65_536) as u32),
        });
    }
    trace
}

/// How long a program takes for a trace; its log goes to a file.
fn play(program: &str, trace: &Path, log: &Path) -> std::io::Result<Duration> {
    let (input, output) = (File::open(trace)?, File::create(log)?);
    let start = Instant::now();
    let status = Command::new(program).stdin(input).stdout(output).stderr(Stdio::inherit()).status()?;
    let took = start.elapsed();
    if status.success() {
        Ok(took)
    } else {
        Err(std::io::Error::other(format!("{program} failed on {}", trace.display())))
    }
}

fn compare(name: &str, records: Vec<u8>, replay: &str, reference: &str, folder: &Path) -> std::io::Result<bool> {
    let trace = folder.join(format!("{name}.trace"));
    let logs = [folder.join(format!("{name}.replay.log")), folder.join(format!("{name}.reference.log"))];
    fs::write(&trace, records)?;
    let mut best = [Duration::MAX; 2];
    for _ in 0..TURNS {
        for (i, program) in [replay, reference].into_iter().enumerate() {
            best[i] = best[i].min(play(program, &trace, &logs[i])?);
        }
    }
    if fs::read(&logs[0])? != fs::read(&logs[1])? {
        println!("{name}: the logs differ");
        return Ok(false);
    }
    let ratio = best[0].as_secs_f64() / best[1].as_secs_f64();
    println!("{name}: replay {:.1?}, Rust {:.1?}, ratio {ratio:.2}", best[0], best[1]);
    Ok(true)
}

/// How long `replay` takes for a hold of 4,294,967,295 clocks after what was set up, and Rust for a hundredth of the clocks, on which both
/// must give one log.
fn long(name: &str, setup: Vec<u8>, rxd: u8, replay: &str, reference: &str, folder: &Path) -> std::io::Result<bool> {
    let once = |clocks| [RESET.to_vec(), setup.clone(), long_hold(0x7F, rxd, clocks)].concat();
    let part = folder.join("long.trace");
    fs::write(&part, once(u32::MAX / 100))?;
    let whole = folder.join("longest.trace");
    fs::write(&whole, once(u32::MAX).repeat(HOLDS))?;
    let none = folder.join("none.trace");
    fs::write(&none, [RESET.to_vec(), setup.clone()].concat().repeat(HOLDS))?;
    let logs = [folder.join("long.replay.log"), folder.join("long.reference.log")];
    play(replay, &part, &logs[0])?;
    let rust = play(reference, &part, &logs[1])?;
    if fs::read(&logs[0])? != fs::read(&logs[1])? {
        println!("{name}: the logs differ");
        return Ok(false);
    }
    let [mut with, mut without] = [Duration::MAX; 2];
    for _ in 0..TURNS {
        with = with.min(play(replay, &whole, &logs[0])?);
        without = without.min(play(replay, &none, &logs[0])?);
    }
    let each = with.saturating_sub(without) / HOLDS as u32;
    println!("{name}: a hold of 4,294,967,295 clocks {each:.1?}; Rust, a hundredth of the clocks, {rust:.1?}");
    Ok(true)
}

fn main() -> ExitCode {
    let words: Vec<String> = std::env::args().collect();
    let [_, replay, reference, folder] = &words[..] else {
        eprintln!("usage: traces REPLAY REFERENCE FOLDER");
        return ExitCode::FAILURE;
    };
    let folder = Path::new(folder);
    let run = || -> std::io::Result<bool> {
        fs::create_dir_all(folder)?;
        let mut same = true;
        for (name, records) in [
            ("quiet", quiet()),
            ("zero", zero()),
            ("wrapping", wrapping()),
            ("halted", halted()),
            ("busy", busy()),
            ("short", short()),
        ] {
            same &= compare(name, records, replay, reference, folder)?;
        }
        for (name, setup, rxd) in [
            ("long, quiet", serial_on(), 1),
            ("long, zero", serial_on(), 0),
            ("long, wrapping", queue_on(&mut Random(3)), 1),
            ("long, wrapping slowly", slow_queue_on(), 1),
            ("long, all", [serial_on(), queue_on(&mut Random(3))].concat(), 1),
        ] {
            same &= long(name, setup, rxd, replay, reference, folder)?;
        }
        Ok(same)
    };
    match run() {
        Ok(true) => ExitCode::SUCCESS,
        Ok(false) => ExitCode::FAILURE,
        Err(error) => {
            eprintln!("traces: {error}");
            ExitCode::FAILURE
        }
    }
}
