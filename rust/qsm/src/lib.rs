//! Motorola's queued serial module (QSM), proved, for hosts in Rust: safe calls of the functions of `include/qsm.h`, by their names there without
//! `qsm_`.
//!
//! ```
//! use qsm::{offset, refusal, scsr, Module};
//!
//! let mut card = Module::new();
//! card.write(true, 2, offset::SCCR0, 4);
//! card.write(true, 2, offset::SCCR1, 0x000C); // TE and RE
//! card.hold(0xFF, true, 5_000);
//! let status = card.read(true, 2, offset::SCSR);
//! assert_eq!(status.refusal, refusal::ANSWERED);
//! assert_eq!(status.value & scsr::TDRE, scsr::TDRE);
//! assert_eq!(status.clock, 5_000);
//! // A write of SCBR while the receiver is on is refused, and changes nothing.
//! assert_eq!(card.write(true, 2, offset::SCCR0, 5).refusal, refusal::GUARDED);
//! ```
//!
//! An emulator calls [`Module::read`] and [`Module::write`] at each bus access and [`Module::hold`] for each stretch of time between them. Every call
//! is answered, whatever the numbers in it. There are no hidden variables: a [`Module`] is plain data, a saved state is a copy of it, and different
//! modules may be used by different threads at once.
//!
//! The functions are those of the archive `target/staticlib/libqsm_c.a`, which `examples/archive` makes. What is proved of them ends at the C boundary:
//! this crate declares their structs and passes slices on as pointers and lengths. Alignment, size and places of all fields are asserted as the header
//! has them, and `tests/host` compares every field that a register shows with what a read gives.

#![deny(missing_docs)]

/// A struct that has the layout of C and can be copied and compared.
macro_rules! c_struct {
    ($(#[$of:meta])* $name:ident { $($(#[$about:meta])* $field:ident: $type:ty),* $(,)? }) => {
        $(#[$of])*
        #[repr(C)]
        #[derive(Clone, Copy, Debug, PartialEq, Eq)]
        pub struct $name {
            $($(#[$about])* pub $field: $type,)*
        }
    };
}

mod drivers;
mod editions;
mod index;
mod layout;
mod lines;
mod logs;
mod module;
mod numbers;
mod plan;
pub mod state;

pub use drivers::Drivers;
pub use editions::{editions_add, editions_get, editions_newest, editions_withdraw, Changed, Edition, Given};
pub use index::{index_build, index_extend, index_find, Found, Indexed};
pub use lines::{Line, Lines, NoiseSum, NoiseSums, Told};
pub use logs::{compare, judge, Compared, Judgement};
pub use module::{Answer, Played};
pub use numbers::{cause, offset, refusal, scsr, told};
pub use plan::{plan, plan_accepts, plan_writes, Plan, Planned, Put, SetPoints};
pub use state::Module;

/// Bytes of an answer in a log.
pub const ANSWER: usize = 18;

/// The version that these structs are of, `QSM_VERSION` in the header. One that was saved belongs to a version: keep the number with it.
pub const VERSION: u32 = 5;

extern "C" {
    fn qsm_version() -> u32;
}

/// The version of the archive's structs, which is [`VERSION`] where archive and crate belong together.
pub fn version() -> u32 {
    // SAFETY: it takes nothing.
    unsafe { qsm_version() }
}
