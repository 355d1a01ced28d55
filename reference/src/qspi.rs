//! The queue half: SPCR0 to SPCR3, SPSR, the queue RAM and the queue as master.

use crate::access::{Half, Refusal};
use crate::flags::Flags;
use crate::registers::qspi::*;

/// What the pins give the queue during a clock.
#[derive(Clone, Copy, Debug)]
pub struct Inputs {
    /// The level read on MISO.
    pub miso: bool,
    /// PCS0/SS is assigned, an input and low.
    pub selected: bool,
}

/// What the queue puts on its pins.
#[derive(Clone, Copy, Debug)]
pub struct Outputs {
    pub sck: bool,
    pub mosi: bool,
    /// PCS3 to PCS0, unless PORTQS rules them.
    pub pcs: Option<u8>,
}

#[derive(Clone, Copy, Debug, PartialEq, Eq)]
enum Phase {
    /// The next clock is clock 1 of an entry.
    Ready,
    /// Between clock 1 and edge 2n.
    Transfer,
    /// After edge 2n.
    Delay,
    /// The delay is over and HALT was set at its last clock.
    Halted,
}

/// The queue at work.
#[derive(Clone, Debug, PartialEq, Eq)]
struct Run {
    phase: Phase,
    pointer: u8,
    /// NEWQP was written since the last clock 1.
    newqp_written: bool,
    command: u8,
    transmit: u16,
    receive: u16,
    /// Bits of the entry, n.
    bits: u8,
    /// Edges of SCK so far.
    edges: u8,
    /// Clocks to the next edge or to the delay's end.
    wait: u16,
    mosi: bool,
    /// The command's PCS are shown.
    selecting: bool,
}

impl Run {
    fn new(pointer: u8) -> Self {
        Self {
            phase: Phase::Ready,
            pointer,
            newqp_written: false,
            command: 0,
            transmit: 0,
            receive: 0,
            bits: 0,
            edges: 0,
            wait: 0,
            mosi: false,
            selecting: false,
        }
    }

    fn commands(&self, bit: u8) -> bool {
        self.command & bit != 0
    }
}

#[derive(Clone, Debug, PartialEq, Eq)]
pub struct Qspi {
    spcr0: u16,
    spcr1: u16,
    spcr2: u16,
    /// The copy of SPCR2 that rules.
    working: u16,
    spcr3: u16,
    spsr: Flags,
    cptqp: u8,
    receive_words: [u16; 16],
    transmit_words: [u16; 16],
    command_bytes: [u8; 16],
    run: Run,
}

impl Qspi {
    pub fn new() -> Self {
        Self {
            spcr0: 0x0104,
            spcr1: 0x0404,
            spcr2: 0,
            working: 0,
            spcr3: 0,
            spsr: Flags::default(),
            cptqp: 0,
            receive_words: [0; 16],
            transmit_words: [0; 16],
            command_bytes: [0; 16],
            run: Run::new(0),
        }
    }

    pub fn asks(&self) -> bool {
        (self.spsr.any(SPIF) && self.working & SPIFIE != 0)
            || (self.spsr.any(MODF | HALTA) && self.spcr3 & HMIE != 0)
    }

    /// The queue's pins while SPE is set.
    pub fn outputs(&self) -> Option<Outputs> {
        self.enabled().then(|| Outputs {
            sck: (self.spcr0 & CPOL != 0) != (self.run.edges % 2 == 1),
            mosi: self.run.mosi,
            pcs: self.run.selecting.then_some(self.run.command & PCS),
        })
    }
}

/// Registers and RAM.
impl Qspi {
    pub fn read(&mut self, half: Half) -> u16 {
        match half.offset {
            SPCR0 => self.spcr0,
            SPCR1 => self.spcr1,
            SPCR2 => self.spcr2,
            SPCR3_SPSR => {
                if half.lower() {
                    self.spsr.see();
                }
                self.spcr3 | self.spsr.bits() | u16::from(self.cptqp)
            }
            0x100..=0x11F => self.receive_words[word_index(half)],
            0x120..=0x13F => self.transmit_words[word_index(half)],
            0x140..=0x14F => u16::from_be_bytes(*self.command_pair(half)),
            _ => 0,
        }
    }

    /// Refusals 3 and 4.
    pub fn test(&self, half: Half) -> Result<(), Refusal> {
        let ones = half.ones();
        let (unmodelled, guarded) = match half.offset {
            SPCR0 => (
                ones & WOMQ != 0 || (half.upper() && matches!(bits_field(ones), 1..=7)),
                half.changes(self.spcr0, SPCR0_MODELLED),
            ),
            SPCR1 => (
                ones & SPE != 0 && self.spcr0 & MSTR == 0,
                half.changes(self.spcr1, !SPE),
            ),
            SPCR3_SPSR => (ones & LOOPQ != 0, false),
            _ => (false, false),
        };
        if unmodelled {
            return Err(Refusal::Unmodelled);
        }
        if guarded && self.enabled() {
            return Err(Refusal::Guarded);
        }
        Ok(())
    }

    pub fn write(&mut self, half: Half) {
        match half.offset {
            SPCR0 => self.spcr0 = half.merged(self.spcr0) & SPCR0_MODELLED,
            SPCR1 => self.write_spcr1(half.merged(self.spcr1)),
            SPCR2 => {
                self.spcr2 = half.merged(self.spcr2) & SPCR2_BITS;
                self.run.newqp_written |= half.lower();
            }
            SPCR3_SPSR => {
                self.spcr3 = half.merged(self.spcr3) & (HMIE | HALT);
                self.spsr.fall(half.zeros());
            }
            0x100..=0x11F => merge(&mut self.receive_words[word_index(half)], half),
            0x120..=0x13F => merge(&mut self.transmit_words[word_index(half)], half),
            0x140..=0x14F => {
                let pair = self.command_pair(half);
                *pair = half.merged(u16::from_be_bytes(*pair)).to_be_bytes();
            }
            _ => {}
        }
    }

    fn write_spcr1(&mut self, new: u16) {
        let old = std::mem::replace(&mut self.spcr1, new);
        if new & SPE == 0 {
            self.stop();
        } else if old & SPE == 0 {
            self.spe_rises();
        }
    }

    fn command_pair(&mut self, half: Half) -> &mut [u8; 2] {
        let (pairs, _) = self.command_bytes.as_chunks_mut();
        &mut pairs[usize::from(half.offset / 2 % 8)]
    }

    fn enabled(&self) -> bool {
        self.spcr1 & SPE != 0
    }
}

/// The queue, clock by clock.
impl Qspi {
    /// One system clock: the mode fault comes before the queue.
    #[inline]
    pub fn clock(&mut self, inputs: Inputs) {
        if !self.enabled() {
            return;
        }
        if inputs.selected && self.spcr0 & MSTR != 0 {
            self.spsr.rise(MODF);
            self.stop();
            return;
        }
        match self.run.phase {
            Phase::Ready => self.begin(inputs.miso),
            Phase::Transfer => self.transfer(inputs.miso),
            Phase::Delay => self.delay(),
            Phase::Halted if !self.halt() => self.begin(inputs.miso),
            Phase::Halted => {}
        }
    }

    fn spe_rises(&mut self) {
        self.working = self.spcr2;
        self.run = Run::new((self.spcr2 & NEWQP) as u8);
    }

    /// SPE falls; what runs is abandoned.
    fn stop(&mut self) {
        self.spcr1 &= !SPE;
        self.run = Run::new(self.run.pointer);
    }

    fn halt(&self) -> bool {
        self.spcr3 & HALT != 0
    }

    /// Clock 1 of an entry: SPCR2, command and transmit word are taken.
    fn begin(&mut self, miso: bool) {
        if self.spcr0 & SPBR < 2 {
            return;
        }
        self.working = self.spcr2;
        if std::mem::take(&mut self.run.newqp_written) {
            self.run.pointer = (self.working & NEWQP) as u8;
        }
        let entry = usize::from(self.run.pointer);
        self.run.command = self.command_bytes[entry];
        self.run.transmit = self.transmit_words[entry];
        self.run.receive = 0;
        self.run.bits = self.entry_bits();
        self.run.edges = 0;
        self.run.wait = self.pre_delay();
        self.run.selecting = true;
        self.run.phase = Phase::Transfer;
        if self.spcr0 & CPHA == 0 {
            self.put_bit(0);
        }
        self.transfer(miso);
    }

    fn entry_bits(&self) -> u8 {
        if !self.run.commands(BITSE) {
            return 8;
        }
        match bits_field(self.spcr0) {
            0 => 16,
            bits => bits,
        }
    }

    fn pre_delay(&self) -> u16 {
        if !self.run.commands(DSCK) {
            return self.spcr0 & SPBR;
        }
        match self.spcr1 >> 8 & 0x7F {
            0 => 128,
            dsckl => dsckl,
        }
    }

    fn post_delay(&self) -> u16 {
        if !self.run.commands(DT) {
            return 17;
        }
        match self.spcr1 & DTL {
            0 => 8192,
            dtl => 32 * dtl,
        }
    }

    /// A clock up to edge 2n; every edge but the first comes SPBR clocks after the last.
    fn transfer(&mut self, miso: bool) {
        self.run.wait -= 1;
        if self.run.wait == 0 {
            self.run.wait = self.spcr0 & SPBR;
            self.edge(miso);
        }
    }

    /// CPHA=0 reads on odd edges and changes MOSI on even ones, CPHA=1 the other way round.
    fn edge(&mut self, miso: bool) {
        self.run.edges += 1;
        let odd = self.run.edges % 2 == 1;
        if odd == (self.spcr0 & CPHA == 0) {
            self.run.receive = self.run.receive << 1 | u16::from(miso);
        } else {
            self.put_bit(self.run.edges / 2);
        }
        if self.run.edges == 2 * self.run.bits {
            self.finish();
        }
    }

    /// Puts a bit of the transmit word on MOSI, counted from the highest; past the last it holds.
    fn put_bit(&mut self, index: u8) {
        if index < self.run.bits {
            let place = self.run.bits - 1 - index;
            self.run.mosi = self.run.transmit >> place & 1 != 0;
        }
    }

    /// Edge 2n.
    fn finish(&mut self) {
        let pointer = self.run.pointer;
        self.receive_words[usize::from(pointer)] = self.run.receive;
        self.cptqp = pointer;
        self.run.phase = Phase::Delay;
        self.run.wait = self.post_delay();
        let endqp = (self.working >> 8 & 0xF) as u8;
        if pointer != endqp {
            self.run.pointer = (pointer + 1) % 16;
            return;
        }
        self.spsr.rise(SPIF);
        if self.working & WREN == 0 {
            self.stop();
        } else if self.working & WRTO != 0 {
            self.run.pointer = (self.working & NEWQP) as u8;
        } else {
            self.run.pointer = 0;
        }
    }

    /// A clock after edge 2n; HALT is asked at the last.
    fn delay(&mut self) {
        self.run.selecting = self.run.commands(CONT);
        self.run.wait -= 1;
        if self.run.wait != 0 {
            return;
        }
        if self.halt() {
            self.spsr.rise(HALTA);
            self.run.phase = Phase::Halted;
        } else {
            self.run.phase = Phase::Ready;
        }
    }
}

/// BITS of an SPCR0 value.
fn bits_field(spcr0: u16) -> u8 {
    (spcr0 >> 10 & 0xF) as u8
}

fn word_index(half: Half) -> usize {
    usize::from(half.offset / 2 % 16)
}

fn merge(word: &mut u16, half: Half) {
    *word = half.merged(*word);
}
