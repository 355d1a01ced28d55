//! A module whose queue two drivers share, the axis driver and the spindle driver.

use crate::module::Answer;
use crate::state::Module;

c_struct!(
    /// A module whose queue two drivers share. The first reset fixes the split: the axis driver owns the entries below it, the spindle driver the rest.
    /// The host may access all of the module; a driver reaches its own entries and, while it holds the claim, the queue's control.
    Drivers {
        /// The module.
        qsm: Module,
        /// The spindle driver's first entry; 0 before the first reset.
        split: u8,
        /// Who holds the claim: 1 the axis driver, 2 the spindle driver, 0 nobody.
        holder: u8,
    }
);

extern "C" {
    fn qsm_drivers_new() -> Drivers;
    fn qsm_drivers_reset(d: *mut Drivers, split: u8) -> Answer;
    fn qsm_drivers_hold(d: *mut Drivers, pins: u8, rxd: bool, clocks: u32) -> Answer;
    fn qsm_drivers_host_read(d: *mut Drivers, supervisor: bool, width: u8, offset: u16) -> Answer;
    fn qsm_drivers_host_write(
        d: *mut Drivers,
        supervisor: bool,
        width: u8,
        offset: u16,
        value: u32,
    ) -> Answer;
    fn qsm_drivers_read(
        d: *mut Drivers,
        spindle: bool,
        supervisor: bool,
        width: u8,
        offset: u16,
    ) -> Answer;
    fn qsm_drivers_write(
        d: *mut Drivers,
        spindle: bool,
        supervisor: bool,
        width: u8,
        offset: u16,
        value: u32,
    ) -> Answer;
    fn qsm_drivers_claim(d: *mut Drivers, spindle: bool) -> Answer;
    fn qsm_drivers_release(d: *mut Drivers, spindle: bool) -> Answer;
}

impl Default for Drivers {
    fn default() -> Self {
        Self::new()
    }
}

// SAFETY, of all calls: a reference is the valid struct that nobody else uses, as the header asks, and a `bool` is 0 or 1.
impl Drivers {
    /// A shared module before its first reset.
    pub fn new() -> Self {
        unsafe { qsm_drivers_new() }
    }

    /// Reset. The first one fixes the split, from 1 to 15; all of them end a claim.
    pub fn reset(&mut self, split: u8) -> Answer {
        unsafe { qsm_drivers_reset(self, split) }
    }

    /// Time passes, as [`Module::hold`].
    pub fn hold(&mut self, pins: u8, rxd: bool, clocks: u32) -> Answer {
        unsafe { qsm_drivers_hold(self, pins, rxd, clocks) }
    }

    /// The host's read.
    pub fn host_read(&mut self, supervisor: bool, width: u8, offset: u16) -> Answer {
        unsafe { qsm_drivers_host_read(self, supervisor, width, offset) }
    }

    /// The host's write.
    pub fn host_write(&mut self, supervisor: bool, width: u8, offset: u16, value: u32) -> Answer {
        unsafe { qsm_drivers_host_write(self, supervisor, width, offset, value) }
    }

    /// A driver's read.
    pub fn read(&mut self, spindle: bool, supervisor: bool, width: u8, offset: u16) -> Answer {
        unsafe { qsm_drivers_read(self, spindle, supervisor, width, offset) }
    }

    /// A driver's write.
    pub fn write(&mut self, spindle: bool, supervisor: bool, width: u8, offset: u16, value: u32) -> Answer {
        unsafe { qsm_drivers_write(self, spindle, supervisor, width, offset, value) }
    }

    /// A driver claims the queue's control.
    pub fn claim(&mut self, spindle: bool) -> Answer {
        unsafe { qsm_drivers_claim(self, spindle) }
    }

    /// A driver releases it.
    pub fn release(&mut self, spindle: bool) -> Answer {
        unsafe { qsm_drivers_release(self, spindle) }
    }
}
