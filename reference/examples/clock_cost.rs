//! Nanoseconds a clock on a quiet line, on an arriving line and with the queue wrapping.

use reference::Module;
use std::hint::black_box;
use std::time::Instant;

const HOLDS: u32 = 400;
const CLOCKS: u32 = 65_535;

fn main() {
    report("nothing enabled", &[], |_| 1);
    report("RE set, SCBR 4, line at one", &[(0x0A, 4)], |_| 1);
    report("queue wrapping, SPBR 4", &QUEUE, |_| 1);
    let both = [&QUEUE[..], &[(0x0A, 0x0C)]].concat();
    report("queue wrapping, TE and RE set", &both, |_| 1);
    report("RE set, SCBR 4, line toggling", &[(0x0A, 4)], |hold| {
        (hold & 1) as u8
    });
}

/// Pins assigned, master, all sixteen entries plain, WREN, SPE.
const QUEUE: [(u16, u32); 4] = [
    (0x16, 0x7B7E),
    (0x18, 0x8004),
    (0x1C, 0x4F00),
    (0x1A, 0x8404),
];

/// The toggling line changes every 128 clocks, a bit of SCBR 4.
fn report(name: &str, writes: &[(u16, u32)], rxd: impl Fn(u32) -> u8) {
    let mut module = Module::new();
    for &(offset, value) in writes {
        assert_eq!(module.write(true, 2, offset, value).refusal, 0);
    }
    let quiet = rxd(0) == rxd(1);
    let (holds, clocks) = if quiet {
        (HOLDS, CLOCKS)
    } else {
        (HOLDS * 512, 128)
    };
    let begin = Instant::now();
    for hold in 0..holds {
        black_box(module.hold(black_box(0xFF), black_box(rxd(hold)), black_box(clocks)));
    }
    let spent = begin.elapsed().as_nanos() as f64;
    let total = f64::from(holds) * f64::from(clocks);
    println!("{name}: {:.2} ns a clock", spent / total);
}
