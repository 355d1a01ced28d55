//! A plain model of the queued serial module (QSM), played clock by clock.
//!
//! [`Module`] answers resets, holds, reads and writes; [`play`] runs a recorded trace on it.
//! `sci` and `qspi` are the two halves, `module` puts the register map, the pins and the
//! interrupt request above them. `registers` has the offsets and bits of all three.

mod access;
mod drivers;
mod flags;
mod module;
mod qspi;
mod receiver;
mod registers;
mod sci;
mod trace;
mod transmitter;

pub use access::Refusal;
pub use drivers::{Driver, Drivers};
pub use module::{Answer, Module};
pub use trace::{play, Played, ANSWER_LENGTH};
