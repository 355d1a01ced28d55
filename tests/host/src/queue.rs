//! What a firmware does with the queue half, in good order and in bad.

use crate::event::{read, write, Event};
use host::random::Random;

const PORTQS: u16 = 0x15;
const PQSPAR: u16 = 0x16;
const DDRQS: u16 = 0x17;
const SPCR0: u16 = 0x18;
const SPCR1: u16 = 0x1A;
const SPCR2: u16 = 0x1C;
const SPCR3: u16 = 0x1E;
const SPSR: u16 = 0x1F;
const RECEIVE: u16 = 0x100;
const TRANSMIT: u16 = 0x120;
const COMMANDS: u16 = 0x140;

const MSTR: u32 = 0x8000;
const SPE: u32 = 0x8000;

/// PCS0: at zero as an assigned input it is a mode fault.
const PCS0: u8 = 0x08;

fn spcr0(random: &mut Random) -> u32 {
    let bits = random.pick(&[0, 8, 9, 12, 15]) << 10;
    let rate = match random.below(20) {
        0 => random.pick(&[0, 1, 255]),
        _ => random.between(2, 6),
    };
    MSTR | bits | random.some(0x0300) | rate
}

fn spcr1(random: &mut Random) -> u32 {
    let before = random.pick(&[0, 1, 2, 3, 10]) << 8;
    let after = match random.below(20) {
        0 => 0,
        _ => random.between(1, 3),
    };
    SPE | before | after
}

fn spcr2(random: &mut Random) -> u32 {
    random.some(0xE000) | random.some(0x0F0F)
}

/// The queue off, pins, words and commands, its registers, and on.
pub fn set_up(random: &mut Random) -> Vec<Event> {
    let mut events = vec![write(2, SPCR1, 0x0404)];
    events.push(write(1, PQSPAR, random.pick(&[0x7B, 0x7B, 0x73, 0x03])));
    events.push(write(1, DDRQS, random.pick(&[0x7E, 0x7E, 0x76, 0xFE])));
    events.push(write(1, PORTQS, random.below(0x100)));
    for i in 0..16 {
        events.push(write(2, TRANSMIT + 2 * i, random.below(0x10000)));
        events.push(write(1, COMMANDS + i, random.below(0x100)));
    }
    events.push(write(2, SPCR0, spcr0(random)));
    events.push(write(2, SPCR2, spcr2(random)));
    events.push(write(1, SPCR3, random.pick(&[0, 0, 2, 3])));
    events.push(write(2, SPCR1, spcr1(random)));
    events
}

/// Time passes with other input levels, or the firmware looks, clears flags, or turns something.
pub fn next(random: &mut Random, pins: &mut u8) -> Event {
    let ram = |random: &mut Random| random.pick(&[RECEIVE, TRANSMIT]) + 2 * random.below(16) as u16;
    match random.below(100) {
        0..=9 => read(1, SPSR),
        10 | 11 => read(2, SPCR3),
        12 => read(4, SPCR2),
        13..=17 => write(1, SPSR, random.pick(&[0, 0, 0x80, 0x40, 0x20, 0xFF])),
        18 => write(2, SPCR3, random.below(4) << 8),
        19 => write(1, SPCR3, random.below(4)),
        20..=22 => read(2, ram(random)),
        23 => write(2, ram(random), random.below(0x10000)),
        24 => read(4, ram(random) & !2),
        25 => write(1, COMMANDS + random.below(16) as u16, random.below(0x100)),
        26 | 27 => write(2, SPCR2, spcr2(random)),
        28 => write(1, SPCR2 + 1, random.below(16)),
        29 => write(1, SPCR2, random.some(0xEF)),
        30 => write(1, random.pick(&[PORTQS, DDRQS]), random.below(0x100)),
        31 => read(1, PORTQS),
        32 => write(2, SPCR0, spcr0(random)),
        33 | 34 => write(2, SPCR1, spcr1(random)),
        35 if random.percent(50) => write(2, SPCR1, random.below(0x8000)),
        36 if random.percent(20) => write(4, SPCR0, random.bits() as u32),
        37 if random.percent(20) => write(4, SPCR1, spcr1(random) << 16 | spcr2(random)),
        _ => hold(random, pins),
    }
}

fn hold(random: &mut Random, pins: &mut u8) -> Event {
    *pins = random.below(0x100) as u8;
    if !random.percent(2) {
        *pins |= PCS0;
    }
    let clocks = match random.below(40) {
        0 if random.percent(1) => random.below(0x4_0000),
        0 => random.below(0x2100),
        1..=9 => random.below(4),
        10..=19 => random.below(20),
        _ => random.below(200),
    };
    Event::Hold {
        pins: *pins,
        rxd: random.percent(50),
        clocks,
    }
}
