//! What a firmware does with the serial half, in good order and in bad.

use crate::event::{read, write, Event};
use crate::line::Line;
use host::random::Random;

const QILR: u16 = 0x04;
const SCCR0: u16 = 0x08;
const SCCR1: u16 = 0x0A;
const SCSR: u16 = 0x0C;
const SCDR: u16 = 0x0E;

// SCCR1.
const SETTINGS: u32 = 0x1F00;
const M: u32 = 0x0200;
const REQUESTS: u32 = 0x00F0;
const TE: u32 = 0x0008;
const RE: u32 = 0x0004;
const RWU: u32 = 0x0002;

/// Both directions off, a rate and settings, both on; and a sender to match.
pub fn set_up(random: &mut Random) -> (Vec<Event>, Line) {
    let scbr = match random.below(10) {
        0 => random.pick(&[0, 5, 8, 16, 55]),
        _ => random.between(1, 4),
    };
    let settings = random.some(SETTINGS) | random.some(REQUESTS);
    let on = random.pick(&[TE | RE, TE | RE, RE, TE]);
    let events = vec![
        write(2, SCCR1, 0),
        write(2, SCCR0, scbr),
        write(2, QILR, random.some(0x3FFF)),
        write(2, SCCR1, settings),
        write(2, SCCR1, settings | on),
    ];
    (events, Line::new(random, scbr, settings & M != 0))
}

/// The line goes on, or the firmware polls, sends, or turns something.
pub fn next(random: &mut Random, line: &mut Line, pins: u8) -> Event {
    match random.below(100) {
        0..=13 => read(2, SCSR),
        14 | 15 => read(1, random.pick(&[SCSR, SCSR + 1])),
        16..=24 => read(2, SCDR),
        25 => read(1, random.pick(&[SCDR, SCDR + 1])),
        26 => read(4, random.pick(&[SCCR0, SCCR1, SCSR])),
        27..=31 => write(2, SCDR, random.below(0x200)),
        32 => write(1, random.pick(&[SCDR, SCDR + 1]), random.below(0x100)),
        33 => write(1, SCCR1 + 1, random.some(REQUESTS) | TE | RE),
        34 => write(1, SCCR1 + 1, random.some(REQUESTS) | RE | RWU),
        35 if random.percent(30) => write(1, SCCR1 + 1, random.some(REQUESTS | TE | RE | RWU)),
        36 if random.percent(30) => write(2, SCCR1, random.some(SETTINGS | REQUESTS) | TE | RE),
        37 if random.percent(30) => write(2, SCCR0, random.below(4)),
        38 if random.percent(30) => write(4, random.pick(&[SCSR, SCCR0]), random.some(0x1FF)),
        39 if random.percent(20) => Event::Hold {
            pins,
            rxd: random.percent(80),
            clocks: random.below(0x1_1000),
        },
        _ => line.hold(random, pins),
    }
}
