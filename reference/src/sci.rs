//! The serial half: SCCR0, SCCR1, SCSR, SCDR and the prescaler.

use crate::access::{Half, Refusal};
use crate::flags::Flags;
use crate::receiver::{Frame, Heard, Receiver};
use crate::registers::sci::*;
use crate::transmitter::{odd_ones, Transmitter};

#[derive(Clone, Debug, PartialEq, Eq)]
pub struct Sci {
    sccr0: u16,
    sccr1: u16,
    scsr: Flags,
    /// The read side of SCDR, and the noise figure of its word.
    received: u16,
    noise: u8,
    /// Frames taken and frames lost since the last reset.
    taken: u32,
    lost: u32,
    /// Clocks since the last sample or the restart.
    prescaler: u16,
    transmitter: Transmitter,
    receiver: Receiver,
}

impl Sci {
    pub fn new() -> Self {
        Self {
            sccr0: 0x0004,
            sccr1: 0,
            scsr: Flags::new(TDRE | TC),
            received: 0,
            noise: 0,
            taken: 0,
            lost: 0,
            prescaler: 0,
            transmitter: Transmitter::default(),
            receiver: Receiver::default(),
        }
    }

    /// The level of TXD, if the SCI drives it.
    pub fn txd(&self) -> Option<bool> {
        (self.has(TE) || self.transmitter.busy()).then(|| self.transmitter.level())
    }

    /// The noise figure of the word in SCDR.
    pub fn noise(&self) -> u8 {
        self.noise
    }

    /// Frames taken since the last reset, the lost ones with them.
    pub fn taken(&self) -> u32 {
        self.taken
    }

    /// Frames lost since the last reset.
    pub fn lost(&self) -> u32 {
        self.lost
    }

    pub fn asks(&self) -> bool {
        (self.scsr.any(TDRE) && self.has(TIE))
            || (self.scsr.any(TC) && self.has(TCIE))
            || (self.scsr.any(RDRF | OR) && self.has(RIE))
            || (self.scsr.any(IDLE) && self.has(ILIE))
    }

    /// One system clock.
    #[inline]
    pub fn clock(&mut self, rxd: bool) {
        let period = 2 * self.sccr0;
        if !self.on() || period == 0 {
            return;
        }
        self.prescaler += 1;
        if self.prescaler == period {
            self.prescaler = 0;
            self.sample(rxd);
        }
    }

    pub fn read(&mut self, half: Half) -> u16 {
        match half.offset {
            SCCR0 => self.sccr0,
            SCCR1 => self.sccr1,
            SCSR => {
                self.scsr.see();
                self.scsr.bits()
            }
            SCDR => {
                if half.lower() {
                    self.scsr.fall(RECEIVE_FLAGS);
                }
                self.received
            }
            _ => 0,
        }
    }

    /// Refusals 3 and 4.
    pub fn test(&self, half: Half) -> Result<(), Refusal> {
        let guarded = match half.offset {
            SCCR0 => half.changes(self.sccr0, SCBR),
            SCCR1 if half.ones() & SCCR1_UNMODELLED != 0 => return Err(Refusal::Unmodelled),
            SCCR1 => half.changes(self.sccr1, SCCR1_GUARDED),
            _ => false,
        };
        if guarded && self.on() {
            return Err(Refusal::Guarded);
        }
        Ok(())
    }

    pub fn write(&mut self, half: Half) {
        match half.offset {
            SCCR0 => self.write_sccr0(half.merged(self.sccr0) & SCBR),
            SCCR1 => self.write_sccr1(half.merged(self.sccr1) & SCCR1_MODELLED),
            SCDR if half.lower() => {
                self.transmitter.data = half.merged(self.transmitter.data) & SCDR_BITS;
                self.scsr.fall(TRANSMIT_FLAGS);
            }
            _ => {}
        }
    }

    fn has(&self, bit: u16) -> bool {
        self.sccr1 & bit != 0
    }

    /// The state in which the guard holds and the prescaler runs.
    fn on(&self) -> bool {
        self.has(TE | RE) || self.transmitter.busy()
    }

    /// A changed rate restarts the prescaler.
    fn write_sccr0(&mut self, new: u16) {
        if new != self.sccr0 {
            self.sccr0 = new;
            self.prescaler = 0;
        }
    }

    fn write_sccr1(&mut self, new: u16) {
        let old = std::mem::replace(&mut self.sccr1, new);
        if new & TE == 0 {
            self.transmitter.te_falls();
        } else if old & TE == 0 {
            self.transmitter.te_rises();
        }
        if new & RE == 0 {
            self.receiver = Receiver::default();
            self.scsr.clear(RAF);
        }
    }

    /// The transmitter goes before the receiver.
    fn sample(&mut self, rxd: bool) {
        self.transmitter.sample(self.sccr1, &mut self.scsr);
        if self.has(RE) {
            self.receive(rxd);
        }
    }

    fn receive(&mut self, rxd: bool) {
        let full = if self.has(M) { 176 } else { 160 };
        if self.receiver.idle(rxd, full) {
            self.line_idle();
        }
        match self.receiver.sample(rxd, data_bits(self.sccr1)) {
            Heard::Nothing => {}
            Heard::Start => self.scsr.rise(RAF),
            Heard::Abandoned => self.scsr.clear(RAF),
            Heard::Frame(frame) => self.frame_ends(frame),
        }
    }

    /// The idle count is full.
    fn line_idle(&mut self) {
        self.scsr.clear(RAF);
        let frame_since = std::mem::take(&mut self.receiver.frame_since_idle);
        if !self.has(RWU) {
            if frame_since {
                self.scsr.rise(IDLE);
            }
        } else if !self.has(WAKE) {
            self.sccr1 &= !RWU;
        }
    }

    fn frame_ends(&mut self, frame: Frame) {
        if self.has(ILT) {
            self.receiver.restart_idle();
        }
        let address = frame.word >> (data_bits(self.sccr1) - 1) != 0;
        if self.has(WAKE) && address {
            self.sccr1 &= !RWU;
        }
        if !self.has(RWU) {
            self.take(frame);
        }
    }

    /// A frame that finds RDRF or OR set is lost.
    fn take(&mut self, frame: Frame) {
        self.taken = self.taken.saturating_add(1);
        if self.scsr.any(RDRF | OR) {
            self.lost = self.lost.saturating_add(1);
            self.scsr.rise(OR);
            return;
        }
        self.received = frame.word;
        self.noise = frame.noise;
        self.receiver.frame_since_idle = true;
        self.scsr.rise(RDRF);
        if frame.noise > 0 {
            self.scsr.rise(NF);
        }
        if !frame.stop {
            self.scsr.rise(FE);
        }
        if self.has(PE) && odd_ones(frame.word) != self.has(PT) {
            self.scsr.rise(PF);
        }
    }
}
