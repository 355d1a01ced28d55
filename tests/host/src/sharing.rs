//! Two drivers and their host at the module that they share: random events on the library and on the reference, every answer compared.

use crate::event::{write, Event};
use crate::pair::{plain, same, Difference};
use crate::{queue, wild};
use host::random::Random;
use qsm::Drivers;
use reference::{Answer, Driver};

const ROUNDS: u32 = 300;
const EVENTS: u32 = 400;

/// What must have come, of each refusal that an access or a claim can be given.
const REFUSALS: [usize; 6] = [0, 1, 2, 3, 4, 9];

struct Sharing {
    random: Random,
    library: Drivers,
    reference: reference::Drivers,
    /// By number.
    refusals: [u64; 11],
}

/// The library's driver by its bool, the reference's by its name.
fn named(spindle: bool) -> Driver {
    if spindle {
        Driver::Spindle
    } else {
        Driver::Axis
    }
}

impl Sharing {
    fn tell(
        &mut self,
        what: impl FnOnce() -> String,
        library: qsm::Answer,
        reference: Answer,
    ) -> Result<(), Difference> {
        self.refusals[usize::from(reference.refusal)] += 1;
        same(what, plain(library), reference)
    }

    fn reset(&mut self, split: u8) -> Result<(), Difference> {
        let library = self.library.reset(split);
        let reference = self.reference.reset(split);
        self.tell(|| format!("reset {split}"), library, reference)
    }

    /// An event of the host, or one that a driver takes over; a driver neither resets nor holds.
    fn event(&mut self, by: Option<bool>, event: Event) -> Result<(), Difference> {
        let (library, reference) = match (event, by) {
            (Event::Reset, _) => {
                let split = self.random.below(20) as u8;
                return self.reset(split);
            }
            (Event::Hold { pins, rxd, clocks }, _) => (
                self.library.hold(pins, rxd, clocks),
                self.reference.module().hold(pins, u8::from(rxd), clocks),
            ),
            (
                Event::Read {
                    supervisor,
                    width,
                    offset,
                },
                None,
            ) => (
                self.library.host_read(supervisor, width, offset),
                self.reference.module().read(supervisor, width, offset),
            ),
            (
                Event::Read {
                    supervisor,
                    width,
                    offset,
                },
                Some(who),
            ) => (
                self.library.read(who, supervisor, width, offset),
                self.reference.read(named(who), supervisor, width, offset),
            ),
            (
                Event::Write {
                    supervisor,
                    width,
                    offset,
                    value,
                },
                None,
            ) => (
                self.library.host_write(supervisor, width, offset, value),
                self.reference
                    .module()
                    .write(supervisor, width, offset, value),
            ),
            (
                Event::Write {
                    supervisor,
                    width,
                    offset,
                    value,
                },
                Some(who),
            ) => (
                self.library.write(who, supervisor, width, offset, value),
                self.reference
                    .write(named(who), supervisor, width, offset, value),
            ),
        };
        self.tell(|| format!("{by:?} {event:X?}"), library, reference)
    }

    fn claim(&mut self, who: bool) -> Result<(), Difference> {
        let (library, reference) = (self.library.claim(who), self.reference.claim(named(who)));
        self.tell(|| format!("claim {who}"), library, reference)
    }

    fn release(&mut self, who: bool) -> Result<(), Difference> {
        let (library, reference) = (
            self.library.release(who),
            self.reference.release(named(who)),
        );
        self.tell(|| format!("release {who}"), library, reference)
    }

    /// A driver's own run, mostly in order: claim, pointers of its range, SPE, time, and the flags.
    fn run(&mut self, who: bool, split: u32) -> Result<(), Difference> {
        let (low, high) = if who { (split, 15) } else { (0, split - 1) };
        let first = self.random.between(low, high);
        let last = self.random.between(first, high);
        let wrap = self.random.pick(&[0, 0, 0x6000, 0x4000]);
        self.claim(who)?;
        let spcr1 = self.library.qsm.qspi.registers.spcr1 as u32 & 0x7FFF;
        let (width, offset) = self.random.pick(&[(2, 0x1C), (2, 0x1C), (1, 0x1C)]);
        let spcr2 = wrap | last << 8 | first;
        let value = if width == 1 { spcr2 >> 8 } else { spcr2 };
        self.event(Some(who), write(width, offset, value))?;
        if self.random.percent(30) {
            self.event(Some(who), write(4, 0x1A, (spcr1 | 0x8000) << 16 | spcr2))
        } else {
            self.event(Some(who), write(2, 0x1A, spcr1 | 0x8000))
        }
    }

    fn next(&mut self, pins: &mut u8) -> Result<(), Difference> {
        let who = self.random.percent(50);
        let by = self.random.pick(&[None, Some(who), Some(who), Some(who)]);
        match self.random.below(100) {
            0..=6 => self.claim(who),
            7..=12 => self.release(who),
            13..=20 => {
                let split = u32::from(self.library.split);
                if (1..=15).contains(&split) {
                    self.run(who, split)
                } else {
                    let split = self.random.below(18) as u8;
                    self.reset(split)
                }
            }
            21..=24 => {
                let event = write(2, 0x1A, self.random.pick(&[0x0404, 0x8404]));
                self.event(by, event)
            }
            25..=70 => {
                let event = queue::next(&mut self.random, pins);
                self.event(by, event)
            }
            _ => {
                let event = wild::next(&mut self.random);
                self.event(by, event)
            }
        }
    }
}

/// Rounds from a shared module that is new, with the queue set up by the host.
pub fn run(seed: u64) -> Result<u64, Difference> {
    let mut sharing = Sharing {
        random: Random::new(seed),
        library: Drivers::new(),
        reference: reference::Drivers::new(),
        refusals: [0; 11],
    };
    for _ in 0..ROUNDS {
        sharing.library = Drivers::new();
        sharing.reference = reference::Drivers::new();
        let mut pins = 0xFF;
        if sharing.random.percent(90) {
            let split = sharing.random.between(1, 15) as u8;
            sharing.reset(split)?;
            for event in queue::set_up(&mut sharing.random) {
                sharing.event(None, event)?;
            }
            sharing.event(None, write(2, 0x1A, 0x0404))?;
        }
        for _ in 0..EVENTS {
            sharing.next(&mut pins)?;
        }
        same(
            || "the shared module's own field".into(),
            sharing.library.qsm.read(true, 4, 0x1A).value,
            sharing.reference.module().read(true, 4, 0x1A).value,
        )?;
    }
    let came = |&number: &usize| u64::from(sharing.refusals[number] > 0);
    same(
        || "refusals that came".into(),
        REFUSALS.iter().map(came).sum::<u64>(),
        REFUSALS.len() as u64,
    )?;
    println!("two drivers: refused 9 {} times", sharing.refusals[9]);
    Ok(sharing.refusals.iter().sum())
}
