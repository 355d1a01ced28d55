//! A module, its events and its traces.

use crate::state::Module;

c_struct!(
    /// The answer to a call: what it gives, and the module's pins and request after it.
    Answer {
        /// Why the call was refused, and the module is as before; 0 if it was not.
        refusal: u8,
        /// What a read gives; else 0.
        value: u32,
        /// Levels of the driven pins; 0 for the others.
        levels: u8,
        /// Which pins the module drives: bits 0 to 7 are MISO, MOSI, SCK, PCS0 to PCS3, TXD.
        mask: u8,
        /// Level of the interrupt request, 1 to 7; 0 where there is none.
        level: u8,
        /// Its vector; 0 where there is none.
        vector: u8,
        /// Clocks since reset, of refused calls too.
        clock: u64,
    }
);

impl Answer {
    /// The answer as a log has it.
    pub fn bytes(&self) -> [u8; crate::ANSWER] {
        let mut bytes = [0; crate::ANSWER];
        bytes[..2].copy_from_slice(&[0x11, self.refusal]);
        bytes[2..6].copy_from_slice(&self.value.to_be_bytes());
        bytes[6..10].copy_from_slice(&[self.levels, self.mask, self.level, self.vector]);
        bytes[10..].copy_from_slice(&self.clock.to_be_bytes());
        bytes
    }
}

c_struct!(
    /// How far a trace was played.
    Played {
        /// The module after the records answered.
        state: Module,
        /// Bytes of those records.
        read: usize,
        /// Bytes of their answers.
        written: usize,
        /// Why it stopped: 5, 6, 7 or 10; 0 at the end of the trace.
        stop: u8,
    }
);

extern "C" {
    fn qsm_new() -> Module;
    fn qsm_reset(m: *mut Module) -> Answer;
    fn qsm_hold(m: *mut Module, pins: u8, rxd: bool, clocks: u32) -> Answer;
    fn qsm_read(m: *mut Module, supervisor: bool, width: u8, offset: u16) -> Answer;
    fn qsm_write(m: *mut Module, supervisor: bool, width: u8, offset: u16, value: u32) -> Answer;
    fn qsm_noise(m: *const Module) -> u8;
    fn qsm_until_change(m: Module, pins: u8, rxd: bool) -> u64;
    fn qsm_taken(m: *const Module) -> u32;
    fn qsm_lost(m: *const Module) -> u32;
    fn qsm_play(m: Module, trace: *const u8, length: usize, log: *mut u8, room: usize) -> Played;
}

impl Default for Module {
    fn default() -> Self {
        Self::new()
    }
}

// SAFETY, of all calls: the header asks for one valid module that nobody else uses, buffers of the given lengths that don't overlap, and bools that
// are 0 or 1. References, slices and `bool` are all of that.
impl Module {
    /// A module fresh from reset.
    pub fn new() -> Self {
        unsafe { qsm_new() }
    }

    /// Reset.
    pub fn reset(&mut self) -> Answer {
        unsafe { qsm_reset(self) }
    }

    /// Time passes, so many clocks, with these levels on the input pins and on RXD. Refused, 10, where the clocks since reset would pass 2^64 - 1.
    pub fn hold(&mut self, pins: u8, rxd: bool, clocks: u32) -> Answer {
        unsafe { qsm_hold(self, pins, rxd, clocks) }
    }

    /// A read of 1, 2 or 4 bytes, which takes no clock.
    pub fn read(&mut self, supervisor: bool, width: u8, offset: u16) -> Answer {
        unsafe { qsm_read(self, supervisor, width, offset) }
    }

    /// A write of 1, 2 or 4 bytes, which takes no clock. A byte or word is the low end of the value.
    pub fn write(&mut self, supervisor: bool, width: u8, offset: u16, value: u32) -> Answer {
        unsafe { qsm_write(self, supervisor, width, offset, value) }
    }

    /// The noise figure of the word in SCDR.
    pub fn noise(&self) -> u8 {
        unsafe { qsm_noise(self) }
    }

    /// The clocks until an answer shows other pins or another request at these levels, or none if it never will.
    pub fn until_change(&self, pins: u8, rxd: bool) -> Option<u64> {
        match unsafe { qsm_until_change(*self, pins, rxd) } {
            0 => None,
            clocks => Some(clocks),
        }
    }

    /// Frames taken since the last reset, the lost ones with them.
    pub fn taken(&self) -> u32 {
        unsafe { qsm_taken(self) }
    }

    /// Frames lost since the last reset.
    pub fn lost(&self) -> u32 {
        unsafe { qsm_lost(self) }
    }

    /// Plays a trace from this state on, and writes the answers, [`ANSWER`](crate::ANSWER) bytes each, to the front of the log. It stops before a
    /// record that it can't answer; the log's bytes past the answers stay.
    pub fn play(self, trace: &[u8], log: &mut [u8]) -> Played {
        unsafe { qsm_play(self, trace.as_ptr(), trace.len(), log.as_mut_ptr(), log.len()) }
    }
}
