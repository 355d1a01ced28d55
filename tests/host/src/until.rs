//! The clocks until something else is shown, beside the reference played clock by clock.

use crate::pair::{same, Difference, Pair};
use host::random::Random;
use reference::Answer;

/// A change that comes later is looked for no further.
const CLOCKS: u64 = 3_000;

/// What is compared of two answers.
fn shown(a: &Answer) -> [u8; 4] {
    [a.levels, a.mask, a.level, a.vector]
}

/// The first clock, of so many, after which the reference shows something else. At the end of the count holds are refused and show the same.
fn first_change(pair: &Pair, pins: u8, rxd: bool) -> Option<u64> {
    let mut module = pair.reference.clone();
    let now = shown(&module.hold(pins, u8::from(rxd), 0));
    (1..=CLOCKS).find(|_| shown(&module.hold(pins, u8::from(rxd), 1)) != now)
}

pub fn check(random: &mut Random, pair: &Pair) -> Result<(), Difference> {
    for rxd in [false, true] {
        let pins = random.some(0xFF) as u8;
        let library = pair.library.until_change(pins, rxd);
        same(
            || format!("the clocks until a change at pins {pins:02X}, RXD {rxd}"),
            library.filter(|clocks| *clocks <= CLOCKS),
            first_change(pair, pins, rxd),
        )?;
    }
    Ok(())
}
