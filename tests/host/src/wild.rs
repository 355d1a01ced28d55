//! Accesses that no firmware should make, among some that it may.

use crate::event::{write, Event};
use host::random::Random;

const QSMCR: u16 = 0x00;

pub fn next(random: &mut Random) -> Event {
    match random.below(100) {
        0 => Event::Reset,
        1..=3 => write(2, QSMCR, random.pick(&[0x0080, 0x0000, 0x000F])),
        4..=15 => Event::Hold {
            pins: random.below(0x100) as u8,
            rxd: random.percent(50),
            clocks: random.below(64),
        },
        _ => access(random),
    }
}

fn access(random: &mut Random) -> Event {
    let width = match random.below(20) {
        0 => random.below(0x80) as u8,
        _ => random.pick(&[1, 2, 4]),
    };
    let mut offset = match random.below(20) {
        0 => random.below(0x10000) as u16,
        1 | 2 => random.pick(&[0x02, 0x06, 0x10, 0x12, 0x20, 0xFE, 0x14E, 0x150, 0xFFFE]),
        3..=5 => random.between(0x100, 0x14F) as u16,
        _ => random.below(0x20) as u16,
    };
    if width != 1 && !random.percent(10) {
        offset &= !1;
    }
    let supervisor = random.percent(75);
    if random.percent(50) {
        return Event::Read {
            supervisor,
            width,
            offset,
        };
    }
    let small = match width {
        1 => 0xFF,
        2 => 0xFFFF,
        _ => 0xFFFF_FFFF,
    };
    let mut value = random.bits() as u32;
    for _ in 0..random.below(3) {
        value &= random.bits() as u32;
    }
    if !random.percent(5) {
        value &= small;
    }
    Event::Write {
        supervisor,
        width,
        offset,
        value,
    }
}
