//! The whole module: register map, privilege, pins and interrupt request.

use crate::access::{Access, Half, Refusal};
use crate::qspi::{Inputs, Qspi};
use crate::registers::own::*;
use crate::sci::Sci;

/// The answer to an event.
#[derive(Clone, Copy, Debug, PartialEq, Eq)]
pub struct Answer {
    /// 1 to 4 of an access, 10 of a hold, or 0.
    pub refusal: u8,
    /// What a read gives, else 0.
    pub value: u32,
    /// Levels of the driven pins; the others are 0.
    pub levels: u8,
    /// Which pins are driven.
    pub mask: u8,
    /// Interrupt level, 0 for none.
    pub level: u8,
    pub vector: u8,
    /// Clocks since reset.
    pub clock: u64,
}

impl Answer {
    /// The answer as a trace's log holds it.
    pub fn bytes(&self) -> [u8; 18] {
        let [a, b, c, d] = self.value.to_be_bytes();
        let Self {
            refusal,
            levels,
            mask,
            level,
            vector,
            ..
        } = *self;
        let mut bytes = [0; 18];
        bytes[..10].copy_from_slice(&[0x11, refusal, a, b, c, d, levels, mask, level, vector]);
        bytes[10..].copy_from_slice(&self.clock.to_be_bytes());
        bytes
    }
}

#[derive(Clone, Debug, PartialEq, Eq)]
pub struct Module {
    qsmcr: u16,
    qilr: u8,
    /// Bit 0 always one.
    qivr: u8,
    portqs: u8,
    pqspar: u8,
    ddrqs: u8,
    /// Pin levels of the last hold.
    input: u8,
    sci: Sci,
    qspi: Qspi,
    /// Clocks since reset.
    clock: u64,
}

impl Default for Module {
    fn default() -> Self {
        Self::new()
    }
}

/// The events.
impl Module {
    /// A module fresh from reset.
    pub fn new() -> Self {
        Self {
            qsmcr: SUPV,
            qilr: 0,
            qivr: 0x0F,
            portqs: 0,
            pqspar: 0,
            ddrqs: 0,
            input: 0,
            sci: Sci::new(),
            qspi: Qspi::new(),
            clock: 0,
        }
    }

    /// The same module with another count of clocks, as if it had run on.
    pub fn counting_from(self, clock: u64) -> Self {
        Self { clock, ..self }
    }

    pub fn reset(&mut self) -> Answer {
        *self = Self::new();
        self.answer(0, 0)
    }

    /// The noise figure of the word in SCDR.
    pub fn noise(&self) -> u8 {
        self.sci.noise()
    }

    /// Frames taken since the last reset, the lost ones with them.
    pub fn taken(&self) -> u32 {
        self.sci.taken()
    }

    /// Frames lost since the last reset.
    pub fn lost(&self) -> u32 {
        self.sci.lost()
    }

    /// Holds pin levels and RXD (nonzero is one) for a number of clocks, unless the count of clocks would pass its end.
    pub fn hold(&mut self, pins: u8, rxd: u8, clocks: u32) -> Answer {
        let Some(clock) = self.clock.checked_add(u64::from(clocks)) else {
            return self.answer(Refusal::Clocks as u8, 0);
        };
        self.clock = clock;
        self.input = pins;
        let inputs = self.queue_inputs();
        for _ in 0..clocks {
            self.qspi.clock(inputs);
            self.sci.clock(rxd != 0);
        }
        self.answer(0, 0)
    }

    pub fn read(&mut self, supervisor: bool, width: u8, offset: u16) -> Answer {
        match Access::decode(width, offset, 0) {
            Err(refusal) => self.answer(refusal as u8, 0),
            Ok(_) if self.blocked(supervisor, offset) => self.answer(0, 0),
            Ok(access) => {
                let first = self.fetch(access.first);
                let second = access.second.map_or(0, |half| self.fetch(half));
                self.answer(0, Access::value(width, offset, first, second))
            }
        }
    }

    pub fn write(&mut self, supervisor: bool, width: u8, offset: u16, value: u32) -> Answer {
        let refusal = match self.try_write(supervisor, width, offset, value) {
            Ok(()) => 0,
            Err(refusal) => refusal as u8,
        };
        self.answer(refusal, 0)
    }
}

/// Accesses.
impl Module {
    /// User access to the global registers, or to anything under SUPV.
    pub(crate) fn blocked(&self, supervisor: bool, offset: u16) -> bool {
        !supervisor && (offset < 0x08 || self.qsmcr & SUPV != 0)
    }

    fn try_write(
        &mut self,
        supervisor: bool,
        width: u8,
        offset: u16,
        value: u32,
    ) -> Result<(), Refusal> {
        let access = Access::decode(width, offset, value)?;
        if self.blocked(supervisor, offset) {
            return Ok(());
        }
        match access.second {
            Some(second) => self.store_both(access.first, second),
            None => {
                self.test(access.first)?;
                self.store(access.first);
                Ok(())
            }
        }
    }

    /// A long write: the second half is tested against what the first would leave.
    fn store_both(&mut self, first: Half, second: Half) -> Result<(), Refusal> {
        let mut trial = self.clone();
        let first_test = trial.test(first);
        trial.store(first);
        let second_test = trial.test(second);
        match (first_test, second_test) {
            (Ok(()), Ok(())) => {
                trial.store(second);
                *self = trial;
                Ok(())
            }
            (Err(a), Err(b)) => Err(a.min(b)),
            (Err(refusal), _) | (_, Err(refusal)) => Err(refusal),
        }
    }

    fn fetch(&mut self, half: Half) -> u16 {
        match half.offset {
            QSMCR => self.qsmcr,
            QILR_QIVR => u16::from_be_bytes([self.qilr, self.qivr]),
            0x08..=0x0F => self.sci.read(half),
            PORTQS => u16::from(self.pin_levels()),
            PQSPAR_DDRQS => u16::from_be_bytes([self.pqspar, self.ddrqs]),
            _ => self.qspi.read(half),
        }
    }

    /// Refusals 3 and 4.
    fn test(&self, half: Half) -> Result<(), Refusal> {
        match half.offset {
            QSMCR if half.ones() & (STOP | FRZ) != 0 => Err(Refusal::Unmodelled),
            QSMCR | QILR_QIVR | PORTQS | PQSPAR_DDRQS => Ok(()),
            0x08..=0x0F => self.sci.test(half),
            _ => self.qspi.test(half),
        }
    }

    fn store(&mut self, half: Half) {
        match half.offset {
            QSMCR => self.qsmcr = half.merged(self.qsmcr) & QSMCR_BITS,
            QILR_QIVR => {
                let [qilr, qivr] = merged_bytes(half, self.qilr, self.qivr);
                self.qilr = qilr & QILR_BITS;
                self.qivr = qivr | 1;
            }
            0x08..=0x0F => self.sci.write(half),
            PORTQS => [_, self.portqs] = merged_bytes(half, 0, self.portqs),
            PQSPAR_DDRQS => {
                let [pqspar, ddrqs] = merged_bytes(half, self.pqspar, self.ddrqs);
                self.pqspar = pqspar & PQSPAR_BITS;
                self.ddrqs = ddrqs;
            }
            _ => self.qspi.write(half),
        }
    }
}

/// Pins and requests.
impl Module {
    pub(crate) fn answer(&self, refusal: u8, value: u32) -> Answer {
        let (levels, mask) = self.driven();
        let (level, vector) = self.request();
        Answer {
            refusal,
            value,
            levels,
            mask,
            level,
            vector,
            clock: self.clock,
        }
    }

    /// What the queue finds on its input pins. Nothing changes it during a hold.
    fn queue_inputs(&self) -> Inputs {
        let inputs = self.pqspar & !self.ddrqs;
        Inputs {
            miso: inputs & MISO & self.input != 0,
            selected: inputs & PCS0 & !self.input != 0,
        }
    }

    /// Levels and mask of the driven pins.
    fn driven(&self) -> (u8, u8) {
        let mut mask = self.ddrqs;
        let mut levels = self.portqs;
        if let Some(queue) = self.qspi.outputs() {
            mask = (mask | SCK) & !(self.pqspar & MISO);
            let pcs = queue.pcs.map_or(self.portqs & PCS, |pcs| pcs << 3);
            let own = when(queue.sck, SCK) | when(queue.mosi, MOSI) | pcs;
            levels = replaced(levels, own, SCK | self.pqspar & (MOSI | PCS));
        }
        if let Some(txd) = self.sci.txd() {
            mask |= TXD;
            levels = replaced(levels, when(txd, TXD), TXD);
        }
        (levels & mask, mask)
    }

    /// What a read of PORTQS gives.
    fn pin_levels(&self) -> u8 {
        let (levels, mask) = self.driven();
        replaced(self.input, levels, mask)
    }

    /// Interrupt level and vector; the QSPI wins a tie.
    fn request(&self) -> (u8, u8) {
        let ilqspi = if self.qspi.asks() { self.qilr >> 3 } else { 0 };
        let ilsci = if self.sci.asks() { self.qilr & 7 } else { 0 };
        match ilqspi.max(ilsci) {
            0 => (0, 0),
            level if level == ilqspi => (level, self.qivr),
            level => (level, self.qivr & !1),
        }
    }
}

/// The two bytes of a word after a write.
fn merged_bytes(half: Half, upper: u8, lower: u8) -> [u8; 2] {
    half.merged(u16::from_be_bytes([upper, lower]))
        .to_be_bytes()
}

/// `old` with the bits of `mask` taken from `new`.
fn replaced(old: u8, new: u8, mask: u8) -> u8 {
    (old & !mask) | (new & mask)
}

fn when(condition: bool, bits: u8) -> u8 {
    if condition {
        bits
    } else {
        0
    }
}
