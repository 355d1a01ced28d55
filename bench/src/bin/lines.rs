//! Gathers the lines of a recorded feed at 9,600 baud with the library and with the Rust implementation of `reference/`, in turns, and prints both
//! times and their ratio.
//!
//! usage: lines [RECORDS]

use qsm::Lines;
use reference::Module;
use std::time::Instant;

const CLOCK: u64 = 20_970_000;
const BAUD: u64 = 9_600;
/// SCBR for 9,600 baud: a sample every 136 clocks.
const SCBR: u8 = 68;
/// A poll every 500 us.
const PERIOD: u32 = 10_485;

const RDRF: u32 = 0x40;
const OR: u32 = 0x08;
/// FE, PF, NF, in the order of causes.
const DAMAGE: [u32; 3] = [0x02, 0x01, 0x04];

#[derive(PartialEq, Debug)]
enum Report {
    Line(u64, Vec<u8>),
    Drop(u64, u8),
}

/// A supervisor's write of a word.
fn write(trace: &mut Vec<u8>, offset: u8, value: u8) {
    trace.extend([0x04, 0x82, 0, offset, 0, 0, 0, value]);
}

/// Lines of a part program, bit by bit, a hold for each: so many holds.
fn feed(records: usize) -> Vec<u8> {
    let mut trace = Vec::with_capacity(5 * records + 16);
    write(&mut trace, 0x08, SCBR);
    write(&mut trace, 0x0A, 0x04);
    let text = b"N30 G01 X112.5 Y40 F200\n";
    for bit in 0..records as u64 {
        let (character, place) = (bit / 12, bit % 12);
        let level = match place {
            _ if character == 0 => true, // a line at rest
            0 => false,
            1..=8 => text[(character - 1) as usize % text.len()] >> (place - 1) & 1 == 1,
            _ => true,
        };
        let clocks = (bit + 1) * CLOCK / BAUD - bit * CLOCK / BAUD;
        trace.extend([0x02, 0xFF, level.into(), (clocks >> 8) as u8, clocks as u8]);
    }
    trace
}

fn library(trace: &[u8]) -> Vec<Report> {
    let mut reports = Vec::new();
    let mut line = [0; 128];
    let mut state = Lines::new();
    loop {
        let told = state.next(trace, PERIOD, &mut line);
        state = told.state;
        match told.kind {
            1 => reports.push(Report::Line(told.number, line[..told.length as usize].to_vec())),
            2 => reports.push(Report::Drop(told.number, told.cause)),
            _ => return reports,
        }
    }
}

/// The same in plain Rust, of holds and writes of words.
struct Gatherer {
    module: Module,
    due: u32,
    number: u64,
    cause: u8,
    line: Vec<u8>,
    reports: Vec<Report>,
}

impl Gatherer {
    fn put(&mut self, status: u32, character: u8) {
        if self.cause == 0 {
            self.cause = DAMAGE.iter().position(|flag| status & flag != 0).map_or(0, |i| i as u8 + 1);
        }
        if character != b'\n' {
            if self.line.len() < 128 {
                self.line.push(character);
            } else if self.cause == 0 {
                self.cause = 4;
            }
            return;
        }
        self.reports.push(match self.cause {
            0 => Report::Line(self.number, self.line.clone()),
            cause => Report::Drop(self.number, cause),
        });
        self.number += 1;
        self.cause = 0;
        self.line.clear();
    }

    fn poll(&mut self) {
        let status = self.module.read(true, 2, 0x0C).value;
        if status & (RDRF | OR) == 0 {
            return;
        }
        let word = self.module.read(true, 2, 0x0E).value;
        if status & RDRF != 0 {
            self.put(status, (word % 128) as u8);
        }
        if status & OR != 0 && self.cause == 0 {
            self.cause = 5;
        }
    }

    fn hold(&mut self, pins: u8, rxd: u8, mut clocks: u32) {
        while clocks >= self.due {
            self.module.hold(pins, rxd, self.due);
            clocks -= self.due;
            self.due = PERIOD;
            self.poll();
        }
        self.module.hold(pins, rxd, clocks);
        self.due -= clocks;
    }
}

fn plain(trace: &[u8]) -> Vec<Report> {
    let mut g = Gatherer { module: Module::new(), due: PERIOD, number: 0, cause: 0, line: Vec::new(), reports: Vec::new() };
    let mut rest = trace;
    while let [kind, body @ ..] = rest {
        rest = if *kind == 0x02 {
            g.hold(body[0], body[1], u32::from(u16::from_be_bytes([body[2], body[3]])));
            &body[4..]
        } else {
            g.module.write(true, 2, u16::from_be_bytes([body[1], body[2]]), u32::from_be_bytes([body[3], body[4], body[5], body[6]]));
            &body[7..]
        };
    }
    g.reports
}

fn main() {
    let records = std::env::args().nth(1).map_or(2_000_000, |word| word.parse().expect("a number of records"));
    let trace = feed(records);
    let start = Instant::now();
    let ours = library(&trace);
    let library = start.elapsed();
    let start = Instant::now();
    let theirs = plain(&trace);
    let plain = start.elapsed();
    assert_eq!(ours, theirs, "the reports differ");
    println!("{records} holds, {} lines and drops: library {library:.2?}, Rust {plain:.2?}, ratio {:.2}", ours.len(), library.as_secs_f64() / plain.as_secs_f64());
}
