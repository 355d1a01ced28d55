//! Two drivers that share one module's queue, judged byte by byte.

use crate::access::Access;
use crate::module::{Answer, Module};

/// The number of the refusal that is the drivers' own.
const NOT_YOURS: u8 = 9;

#[derive(Clone, Copy, Debug, PartialEq, Eq)]
pub enum Driver {
    Axis,
    Spindle,
}

#[derive(Clone, Debug, Default, PartialEq, Eq)]
pub struct Drivers {
    module: Module,
    /// The spindle driver's first entry, once a reset has fixed it.
    split: Option<u8>,
    holder: Option<Driver>,
}

/// The host's events.
impl Drivers {
    pub fn new() -> Self {
        Self::default()
    }

    pub fn reset(&mut self, split: u8) -> Answer {
        match self.split {
            None if !(1..=15).contains(&split) => return self.refused(),
            None => self.split = Some(split),
            Some(_) => {}
        }
        self.holder = None;
        self.module.reset()
    }

    /// The module, for the host's holds and accesses.
    pub fn module(&mut self) -> &mut Module {
        &mut self.module
    }
}

/// The drivers' events.
impl Drivers {
    pub fn read(&mut self, who: Driver, supervisor: bool, width: u8, offset: u16) -> Answer {
        if self.comes_to_nine(supervisor, width, offset, 0) && !self.reaches(who, width, offset) {
            return self.refused();
        }
        self.module.read(supervisor, width, offset)
    }

    pub fn write(
        &mut self,
        who: Driver,
        supervisor: bool,
        width: u8,
        offset: u16,
        value: u32,
    ) -> Answer {
        let allowed =
            || self.reaches(who, width, offset) && self.in_order(who, width, offset, value);
        if self.comes_to_nine(supervisor, width, offset, value) && !allowed() {
            return self.refused();
        }
        self.module.write(supervisor, width, offset, value)
    }

    pub fn claim(&mut self, who: Driver) -> Answer {
        if self.split.is_none() || self.holder.is_some_and(|holder| holder != who) {
            return self.refused();
        }
        self.holder = Some(who);
        self.module.answer(0, 0)
    }

    pub fn release(&mut self, who: Driver) -> Answer {
        let running = self.register(0x1A) & 0x8000 != 0;
        if self.split.is_none() || self.holder != Some(who) || running {
            return self.refused();
        }
        self.holder = None;
        self.module.answer(0, 0)
    }
}

impl Drivers {
    fn refused(&self) -> Answer {
        self.module.answer(NOT_YOURS, 0)
    }

    /// Refusals 1 and 2 and privilege come first.
    fn comes_to_nine(&self, supervisor: bool, width: u8, offset: u16, value: u32) -> bool {
        Access::decode(width, offset, value).is_ok() && !self.module.blocked(supervisor, offset)
    }

    /// A queue register as it stands.
    fn register(&self, offset: u16) -> u16 {
        self.module.clone().read(true, 2, offset).value as u16
    }

    fn owns(&self, who: Driver, entry: u16) -> bool {
        self.split.is_some_and(|split| match who {
            Driver::Axis => entry < u16::from(split),
            Driver::Spindle => entry >= u16::from(split),
        })
    }

    fn reaches(&self, who: Driver, width: u8, offset: u16) -> bool {
        (offset..offset + u16::from(width)).all(|byte| match byte {
            0x1A..=0x1F => self.split.is_some() && self.holder == Some(who),
            0x100..=0x11F => self.owns(who, (byte - 0x100) / 2),
            0x120..=0x13F => self.owns(who, (byte - 0x120) / 2),
            0x140..=0x14F => self.owns(who, byte - 0x140),
            _ => false,
        })
    }

    fn fit(&self, who: Driver, spcr2: u16) -> bool {
        let (last, first) = (spcr2 >> 8 & 15, spcr2 & 15);
        let wraps_to_0 = spcr2 & 0x6000 == 0x4000;
        self.owns(who, first) && self.owns(who, last) && first <= last && !wraps_to_0
    }

    /// What a write leaves at 1A to 1D is what the driver may put there.
    fn in_order(&self, who: Driver, width: u8, offset: u16, value: u32) -> bool {
        let (spcr1, spcr2) = (self.register(0x1A), self.register(0x1C));
        let mut bytes = [
            (spcr1 >> 8) as u8,
            spcr1 as u8,
            (spcr2 >> 8) as u8,
            spcr2 as u8,
        ];
        let mut touched = [false; 4];
        for (place, byte) in (offset..).zip(&value.to_be_bytes()[4 - usize::from(width)..]) {
            if let 0x1A..=0x1D = place {
                bytes[usize::from(place - 0x1A)] = *byte;
                touched[usize::from(place - 0x1A)] = true;
            }
        }
        let word = |at: usize| u16::from_be_bytes([bytes[at], bytes[at + 1]]);
        let delays_kept = (word(0) ^ spcr1) & 0x7FFF == 0;
        let sets_spe = touched[0] && bytes[0] & 0x80 != 0;
        let whole = touched[2] && touched[3];
        delays_kept
            && (!sets_spe || self.fit(who, spcr2))
            && (!(touched[2] || touched[3])
                || self.fit(who, word(2)) && (spcr1 & 0x8000 == 0 || whole))
    }
}
