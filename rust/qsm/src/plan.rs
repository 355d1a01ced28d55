//! Plans of the queue.

c_struct!(
    /// Set-points for the queue in order, of which the first `count` are meant.
    SetPoints {
        /// 1 to 16.
        count: u8,
        /// Chip selects, 0 to 15.
        selects: [u8; 16],
        /// Bits of each word, 8 to 16.
        bits: [u8; 16],
        /// Words, not too big for their bits.
        words: [u16; 16],
    }
);

c_struct!(
    /// A plan: entries from the first pointer on, of which the first `count` are meant, registers, and the clock of the last edge.
    Plan {
        /// The clock of the last edge, counted from the first entry's clock 1.
        clock: u64,
        /// SPCR0.
        spcr0: u16,
        /// SPCR1.
        spcr1: u16,
        /// SPCR2, whose NEWQP and ENDQP don't count: loading puts `first` and `last` in.
        spcr2: u16,
        /// Entries.
        count: u8,
        /// The first entry.
        first: u8,
        /// The last entry.
        last: u8,
        /// Command bytes.
        commands: [u8; 16],
        /// Transmit words.
        words: [u16; 16],
    }
);

c_struct!(
    /// A plan, made.
    Planned {
        /// Zeros where it is refused.
        plan: Plan,
        /// 11 where there is none; else 0.
        refusal: u8,
    }
);

c_struct!(
    /// A write for the host to make as supervisor.
    Put {
        /// The value.
        value: u32,
        /// Its place.
        offset: u16,
        /// Its width; 0: no write.
        width: u8,
    }
);

extern "C" {
    fn qsm_plan(points: SetPoints, window: u64) -> Planned;
    fn qsm_plan_accepts(points: SetPoints, window: u64, plan: Plan) -> bool;
    fn qsm_plan_writes(plan: Plan) -> u16;
    fn qsm_plan_write(plan: Plan, number: u16) -> Put;
}

// SAFETY, of the four calls: they take numbers alone.

/// The quickest plan that sends the set-points within a window of clocks.
pub fn plan(points: SetPoints, window: u64) -> Planned {
    unsafe { qsm_plan(points, window) }
}

/// Whether a plan, whoever made it, carries these set-points within this window.
pub fn plan_accepts(points: SetPoints, window: u64, plan: Plan) -> bool {
    unsafe { qsm_plan_accepts(points, window, plan) }
}

/// The writes that load a plan, in order; the last, of SPCR1, starts the queue.
pub fn plan_writes(plan: Plan) -> impl Iterator<Item = Put> {
    let count = unsafe { qsm_plan_writes(plan) };
    (0..count).map(move |number| unsafe { qsm_plan_write(plan, number) })
}
