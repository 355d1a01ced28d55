//! Numbers that calls take and give.

/// Why an access was refused, or why a trace stopped.
pub mod refusal {
    /// Not refused, or the trace's end.
    pub const ANSWERED: u8 = 0;
    /// A width that is not 1, 2 or 4; an odd offset with 2 or 4; a written value too big for the width.
    pub const MISSHAPEN: u8 = 1;
    /// A byte touched is not in the map.
    pub const UNMAPPED: u8 = 2;
    /// A write would set an unmodelled bit, BITS 1 to 7, or SPE with MSTR clear.
    pub const UNMODELLED: u8 = 3;
    /// A write would change a guarded field while its half is on.
    pub const GUARDED: u8 = 4;
    /// A record, or an answer, of unknown kind.
    pub const UNKNOWN_KIND: u8 = 5;
    /// A record, or an answer, cut by the end.
    pub const CUT_RECORD: u8 = 6;
    /// No room for what is to be written.
    pub const NO_ROOM: u8 = 7;
    /// An edition to add that is not above the last, or one to withdraw or get that is not there.
    pub const NO_EDITION: u8 = 8;
    /// Two drivers: what the driver may not reach, claim or write.
    pub const NOT_YOURS: u8 = 9;
    /// The clocks since reset would pass 2^64 - 1.
    pub const CLOCK_LIMIT: u8 = 10;
    /// No plan for these set-points in this window.
    pub const NO_PLAN: u8 = 11;
}

/// Offsets of the registers from the module's base.
pub mod offset {
    /// QSM configuration, a word.
    pub const QSMCR: u16 = 0x00;
    /// Interrupt levels, a byte.
    pub const QILR: u16 = 0x04;
    /// Interrupt vector, a byte.
    pub const QIVR: u16 = 0x05;
    /// Serial control 0, the rate.
    pub const SCCR0: u16 = 0x08;
    /// Serial control 1.
    pub const SCCR1: u16 = 0x0A;
    /// Serial status.
    pub const SCSR: u16 = 0x0C;
    /// Serial data.
    pub const SCDR: u16 = 0x0E;
    /// Port data, a byte.
    pub const PORTQS: u16 = 0x15;
    /// Pin assignment, a byte.
    pub const PQSPAR: u16 = 0x16;
    /// Pin directions, a byte.
    pub const DDRQS: u16 = 0x17;
    /// Queue control 0.
    pub const SPCR0: u16 = 0x18;
    /// Queue control 1.
    pub const SPCR1: u16 = 0x1A;
    /// Queue control 2.
    pub const SPCR2: u16 = 0x1C;
    /// Queue control 3, a byte.
    pub const SPCR3: u16 = 0x1E;
    /// Queue status, a byte.
    pub const SPSR: u16 = 0x1F;
    /// The 16 receive words of the queue.
    pub const RECEIVE: u16 = 0x100;
    /// The 16 transmit words of the queue.
    pub const TRANSMIT: u16 = 0x120;
    /// The 16 command bytes of the queue.
    pub const COMMANDS: u16 = 0x140;
}

/// The flags of SCSR.
pub mod scsr {
    /// Transmit data register empty.
    pub const TDRE: u32 = 0x0100;
    /// Transmission complete.
    pub const TC: u32 = 0x0080;
    /// Receive data register full.
    pub const RDRF: u32 = 0x0040;
    /// Receiver active.
    pub const RAF: u32 = 0x0020;
    /// Idle line.
    pub const IDLE: u32 = 0x0010;
    /// Overrun: a character, or more than one, was lost after the one in SCDR.
    pub const OR: u32 = 0x0008;
    /// Noise.
    pub const NF: u32 = 0x0004;
    /// Framing error.
    pub const FE: u32 = 0x0002;
    /// Parity error.
    pub const PF: u32 = 0x0001;
}

/// What [`Lines::next`](crate::Lines::next) tells of.
pub mod told {
    /// The end of the trace.
    pub const END: u8 = 0;
    /// A line.
    pub const LINE: u8 = 1;
    /// A line that is dropped.
    pub const DROP: u8 = 2;
    /// A record that it can't take.
    pub const STOP: u8 = 3;
    /// A call that is refused.
    pub const REFUSED: u8 = 4;
}

/// The first cause to drop a line.
pub mod cause {
    /// A word with a framing error.
    pub const FE: u8 = 1;
    /// A word with a parity error.
    pub const PF: u8 = 2;
    /// A word with noise.
    pub const NF: u8 = 3;
    /// A 129th character.
    pub const LENGTH: u8 = 4;
    /// An overrun.
    pub const OR: u8 = 5;
}
