//! The library's module and the reference's, side by side.

use crate::event::Event;
use reference::Answer;

/// What the two gave, where it differs.
pub struct Difference {
    pub what: String,
    pub library: String,
    pub reference: String,
}

/// The difference of two values, if there is one.
pub fn same<T: PartialEq + std::fmt::Debug>(
    what: impl FnOnce() -> String,
    library: T,
    reference: T,
) -> Result<(), Difference> {
    if library == reference {
        return Ok(());
    }
    Err(Difference {
        what: what(),
        library: format!("{library:X?}"),
        reference: format!("{reference:X?}"),
    })
}

/// The library's answer in the reference's type.
pub fn plain(answer: qsm::Answer) -> Answer {
    let qsm::Answer { refusal, value, levels, mask, level, vector, clock } = answer;
    Answer { refusal, value, levels, mask, level, vector, clock }
}

#[derive(Clone)]
pub struct Pair {
    pub library: qsm::Module,
    pub reference: reference::Module,
}

impl Pair {
    pub fn new() -> Self {
        Self {
            library: qsm::Module::new(),
            reference: reference::Module::new(),
        }
    }

    /// Both as if they had run on to a count of clocks.
    pub fn counting_from(self, clock: u64) -> Self {
        let mut library = self.library;
        library.clock = clock;
        Self {
            library,
            reference: self.reference.counting_from(clock),
        }
    }

    /// Both answer an event, alike.
    pub fn event(&mut self, event: Event) -> Result<Answer, Difference> {
        let (library, reference) = match event {
            Event::Reset => (self.library.reset(), self.reference.reset()),
            Event::Hold { pins, rxd, clocks } => (
                self.library.hold(pins, rxd, clocks),
                self.reference.hold(pins, u8::from(rxd), clocks),
            ),
            Event::Read {
                supervisor,
                width,
                offset,
            } => (
                self.library.read(supervisor, width, offset),
                self.reference.read(supervisor, width, offset),
            ),
            Event::Write {
                supervisor,
                width,
                offset,
                value,
            } => (
                self.library.write(supervisor, width, offset, value),
                self.reference.write(supervisor, width, offset, value),
            ),
        };
        same(|| format!("{event:X?}"), plain(library), reference)?;
        same(
            || format!("the noise figure after {event:X?}"),
            self.library.noise(),
            self.reference.noise(),
        )?;
        same(
            || format!("the frames taken and lost after {event:X?}"),
            (self.library.taken(), self.library.lost()),
            (self.reference.taken(), self.reference.lost()),
        )?;
        Ok(reference)
    }

    /// Reads of every width at every offset of the map and past it, and of every width there is, each on a copy.
    pub fn readable(&self) -> Result<(), Difference> {
        for supervisor in [false, true] {
            let read = |width, offset| {
                self.clone().event(Event::Read {
                    supervisor,
                    width,
                    offset,
                })
            };
            for offset in (0..0x154).chain([0x7FFF, 0x8000, 0xFFFE, 0xFFFF]) {
                for width in [1, 2, 4] {
                    read(width, offset)?;
                }
            }
            for width in 0..=0xFF {
                read(width, 0x0C)?;
            }
        }
        Ok(())
    }
}
