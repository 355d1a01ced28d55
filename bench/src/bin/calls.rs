//! Times single calls of the library and of the Rust implementation of `reference/`, in turns, in one run.

use std::hint::black_box;
use std::time::Instant;

/// Turns for each call; the best one counts.
const TURNS: usize = 60;

const SCSR: u16 = 0x0C;
const SCDR: u16 = 0x0E;
const PINS: u8 = 0xFF;

/// Clocks for which RXD keeps a level on a busy line: a bit at SCBR 4.
const BIT: u32 = 128;

/// The calls that are timed.
#[derive(Clone, Copy)]
enum Call {
    Read,
    Write,
    Hold(u32),
}

/// The calls of both modules, with a number of each answer. The whole answer is made: `black_box` keeps it.
trait Module: Clone {
    fn read(&mut self, offset: u16) -> u32;
    fn write(&mut self, offset: u16, value: u32) -> u32;
    fn hold(&mut self, rxd: bool, clocks: u32) -> u32;
}

macro_rules! module {
    ($type:ty, $level:ty) => {
        impl Module for $type {
            fn read(&mut self, offset: u16) -> u32 {
                black_box(self.read(true, black_box(2), offset)).value
            }
            fn write(&mut self, offset: u16, value: u32) -> u32 {
                let answer = self.write(true, black_box(2), offset, value);
                black_box(answer).refusal.into()
            }
            fn hold(&mut self, rxd: bool, clocks: u32) -> u32 {
                let answer = self.hold(PINS, <$level>::from(rxd), clocks);
                black_box(answer).levels.into()
            }
        }
    };
}

module!(qsm::Module, bool);
module!(reference::Module, u8);

/// Receiver and transmitter on at SCBR 4; for a busy module the queue runs over its sixteen entries, and again.
fn set_up<M: Module>(mut module: M, busy: bool) -> M {
    let mut registers = vec![(0x08, 4), (0x0A, 0x000C)];
    if busy {
        registers.push((0x16, 0x7B7E));
        registers.extend((0..16).map(|i| (0x120 + 2 * i, 0xA5A5 ^ u32::from(i))));
        registers.extend((0..8).map(|i| (0x140 + 2 * i, 0x4E0E)));
        registers.extend([(0x1C, 0x4F00), (0x18, 0x8104), (0x1A, 0x8404)]);
    }
    for (offset, value) in registers {
        assert_eq!(module.write(offset, value), 0);
    }
    module.hold(true, 5000);
    module
}

/// Nanoseconds a call, of so many in a row from one state on, and the sum of what they gave.
fn time<M: Module>(from: &M, call: Call, busy: bool, count: u32) -> (f64, u32) {
    let mut module = black_box(from.clone());
    let mut sum = 0u32;
    let start = Instant::now();
    for i in 0..count {
        let given = match call {
            Call::Read => module.read(black_box(SCSR)),
            Call::Write => module.write(black_box(SCDR), black_box(i % 512)),
            Call::Hold(clocks) => {
                let level = !busy || (i * clocks / BIT).is_multiple_of(2);
                module.hold(black_box(level), black_box(clocks))
            }
        };
        sum = sum.wrapping_add(given);
    }
    let took = start.elapsed().as_secs_f64() * 1e9;
    black_box(module);
    (took / f64::from(count), sum)
}

fn main() {
    println!("ns a call                     library  reference  ratio");
    for busy in [false, true] {
        let library = set_up(qsm::Module::new(), busy);
        let reference = set_up(reference::Module::new(), busy);
        for (name, call, count) in [
            ("read of SCSR", Call::Read, 100_000),
            ("write of SCDR", Call::Write, 100_000),
            ("hold of 1 clock", Call::Hold(1), 100_000),
            ("hold of 1,000 clocks", Call::Hold(1000), 1_000),
        ] {
            let mut best = [f64::MAX; 2];
            for _ in 0..TURNS {
                let (ours, a) = time(&library, call, busy, count);
                let (theirs, b) = time(&reference, call, busy, count);
                assert_eq!(a, b, "{name}: the answers differ");
                best = [best[0].min(ours), best[1].min(theirs)];
            }
            let [ours, theirs] = best;
            let state = if busy { "busy" } else { "idle" };
            let ratio = ours / theirs;
            println!("{state}: {name:22} {ours:9.1}  {theirs:9.1}  {ratio:5.2}");
        }
    }
}
