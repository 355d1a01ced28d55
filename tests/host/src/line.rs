//! What a sender puts on RXD: frames bit by bit, rests, breaks and noise.

use crate::event::Event;
use host::random::Random;

pub struct Line {
    /// Bits to send, lowest first, and how many.
    bits: u32,
    count: u32,
    /// Clocks left of this bit, and of each bit.
    left: u32,
    bit: u32,
    nine: bool,
    noise: u32,
}

impl Line {
    /// A sender for a receiver with this SCBR and M: near its rate, with noise so many times in a hundred bits.
    pub fn new(random: &mut Random, scbr: u32, nine: bool) -> Self {
        let exact = 32 * scbr.max(1);
        Self {
            bits: 1,
            count: 1,
            left: exact,
            bit: (exact * random.pick(&[100, 100, 100, 97, 98, 102, 104]) / 100).max(1),
            nine,
            noise: random.pick(&[0, 0, 2, 10]),
        }
    }

    /// What comes after the bits sent.
    fn refill(&mut self, random: &mut Random) {
        let data_bits = if self.nine { 9 } else { 8 };
        (self.bits, self.count) = match random.below(20) {
            0 | 1 => (!0, random.between(1, 6)),
            2 => (!0, random.between(10, 32)),
            3 => (0, random.between(1, 14)),
            4 => (random.bits() as u32, random.between(1, 32)),
            kind => {
                let data = random.below(1 << data_bits);
                let stop = u32::from(kind != 5);
                ((stop << data_bits | data) << 1, data_bits + 2)
            }
        };
    }

    /// A hold of a bit, or of the part of it that is left, or of some of its clocks; now and then with the level turned.
    pub fn hold(&mut self, random: &mut Random, pins: u8) -> Event {
        if self.left == 0 {
            self.bits >>= 1;
            self.count -= 1;
            if self.count == 0 {
                self.refill(random);
            }
            self.left = self.bit;
        }
        let level = self.bits & 1 == 1;
        let noisy = random.percent(self.noise);
        let most = if noisy { self.bit / 8 + 1 } else { self.bit };
        let clocks = if noisy || random.percent(20) {
            random.between(1, most.min(self.left))
        } else {
            self.left
        };
        self.left -= clocks;
        Event::Hold {
            pins,
            rxd: level != noisy,
            clocks,
        }
    }
}
