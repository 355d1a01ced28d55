//! The SCI's transmit shifter, one call a sample.

use crate::flags::Flags;
use crate::registers::sci::{data_bits, PE, PT, TC, TDRE, TE};

/// How long each bit stays on TXD.
const SAMPLES_A_BIT: u16 = 16;

#[derive(Clone, Debug, Default, PartialEq, Eq)]
pub struct Transmitter {
    /// The write side of SCDR, nine bits.
    pub data: u16,
    /// A preamble waits for the shifter.
    queued_preamble: bool,
    /// Bits still to be sent, the present one lowest.
    shifter: u16,
    /// Samples until what runs ends; 0 is a free shifter.
    samples_left: u16,
}

impl Transmitter {
    /// A frame or preamble runs.
    pub fn busy(&self) -> bool {
        self.samples_left != 0
    }

    /// The level of TXD while it is driven.
    pub fn level(&self) -> bool {
        !self.busy() || self.shifter & 1 != 0
    }

    pub fn te_rises(&mut self) {
        self.queued_preamble = true;
    }

    pub fn te_falls(&mut self) {
        self.queued_preamble = false;
    }

    pub fn sample(&mut self, sccr1: u16, flags: &mut Flags) {
        if self.busy() {
            self.go_on(flags);
        }
        if !self.busy() && sccr1 & TE != 0 {
            self.begin(sccr1, flags);
        }
    }

    fn go_on(&mut self, flags: &mut Flags) {
        self.samples_left -= 1;
        if self.samples_left.is_multiple_of(SAMPLES_A_BIT) {
            self.shifter >>= 1;
        }
        if self.samples_left == 0 && flags.any(TDRE) {
            flags.rise(TC);
        }
    }

    /// A preamble goes before data.
    fn begin(&mut self, sccr1: u16, flags: &mut Flags) {
        if self.queued_preamble {
            self.queued_preamble = false;
            self.load(u16::MAX, sccr1);
        } else if !flags.any(TDRE) {
            flags.rise(TDRE);
            self.load(frame(self.data, sccr1), sccr1);
        }
    }

    fn load(&mut self, bits: u16, sccr1: u16) {
        self.shifter = bits;
        self.samples_left = SAMPLES_A_BIT * (data_bits(sccr1) + 2);
    }
}

/// Parity, of a word to send and of one received.
pub fn odd_ones(word: u16) -> bool {
    word.count_ones() % 2 == 1
}

/// Start bit, data low bit first, stop bit. PE puts parity in the place of the top data bit.
fn frame(data: u16, sccr1: u16) -> u16 {
    let count = data_bits(sccr1);
    let top = 1 << (count - 1);
    let mut word = data & (2 * top - 1);
    if sccr1 & PE != 0 {
        word &= top - 1;
        if odd_ones(word) != (sccr1 & PT != 0) {
            word |= top;
        }
    }
    word << 1 | 1 << (count + 1)
}
