//! Lines gathered from a trace that is replayed with polling.

use crate::state::Module;

c_struct!(
    /// The line being gathered.
    Line {
        /// From 0 over all lines that ended.
        number: u64,
        /// To drop it, or 0.
        cause: u8,
        /// Characters so far.
        count: u8,
        /// They.
        characters: [u8; 128],
    }
);

c_struct!(
    /// The noise figures of a line's words, its newline's among them.
    NoiseSum {
        /// Their total, which stays at the largest number.
        total: u64,
        /// The worst.
        worst: u8,
    }
);

c_struct!(
    /// Noise figures by line.
    NoiseSums {
        /// Of the line being gathered.
        line: NoiseSum,
        /// Of the line that ended last: after a call, the one that it tells of.
        last: NoiseSum,
    }
);

c_struct!(
    /// Where a replay stands: kept from call to call.
    Lines {
        /// Place in the trace, from its first byte.
        at: usize,
        /// Clocks left of the hold under way.
        left: u32,
        /// Clocks since the last poll.
        since: u16,
        /// Pin levels of the hold under way.
        pins: u8,
        /// Its level of RXD.
        rxd: bool,
        /// The line being gathered.
        line: Line,
        /// Noise figures.
        noise: NoiseSums,
        /// The module.
        device: Module,
    }
);

c_struct!(
    /// What a call tells.
    Told {
        /// Where the replay stands then.
        state: Lines,
        /// The number of a line or a drop.
        number: u64,
        /// One of [`told`](crate::told).
        kind: u8,
        /// Characters of a line, at the start of the buffer.
        length: u8,
        /// Of a drop, one of [`cause`](crate::cause).
        cause: u8,
        /// Of a stop: 3 for an access that touches SCSR or SCDR, 5, 6 or 10; of a refused call: 1 for the period, 7 for the buffer.
        refusal: u8,
    }
);

extern "C" {
    fn qsm_lines_new() -> Lines;
    fn qsm_lines_next(
        state: Lines,
        trace: *const u8,
        length: usize,
        period: u32,
        line: *mut u8,
        room: usize,
    ) -> Told;
}

impl Default for Lines {
    fn default() -> Self {
        Self::new()
    }
}

impl Lines {
    /// At the start of a trace.
    pub fn new() -> Self {
        // SAFETY: it takes nothing.
        unsafe { qsm_lines_new() }
    }

    /// Goes on to the next line, drop, stop or end, with a poll after every `period` clocks. A line's characters are put at the start of the buffer,
    /// which needs 128 bytes.
    pub fn next(self, trace: &[u8], period: u32, line: &mut [u8]) -> Told {
        // SAFETY: slices are what the header asks for.
        unsafe { qsm_lines_next(self, trace.as_ptr(), trace.len(), period, line.as_mut_ptr(), line.len()) }
    }
}
