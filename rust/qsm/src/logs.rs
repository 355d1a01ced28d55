//! Logs compared with one another, and judged by a trace.

c_struct!(
    /// Where two logs differ.
    Compared {
        /// Answers that differ: twice as many numbers are in the list.
        count: u64,
        /// 5, 6 or 7; else 0.
        refusal: u8,
        /// The surplus is the second log's; the first's where neither is longer.
        second: bool,
        /// Its place in that log: the common end.
        start: usize,
        /// Its bytes.
        length: usize,
    }
);

c_struct!(
    /// The verdict on a log.
    Judgement {
        /// The number of the first wrong answer; 0 if it is accepted.
        number: u64,
        /// Its first field that differs, as [`compare`] numbers them; 0 if it is accepted.
        field: u8,
        /// Why the trace stopped: 5, 6 or 10; 0 at its end.
        stop: u8,
    }
);

extern "C" {
    fn qsm_compare(
        first: *const u8,
        first_length: usize,
        second: *const u8,
        second_length: usize,
        list: *mut u64,
        room: usize,
    ) -> Compared;
    fn qsm_judge(trace: *const u8, trace_length: usize, log: *const u8, log_length: usize) -> Judgement;
}

/// Compares two logs of one kind. For each answer that differs the list gets its number and the sum of its differing fields: kind 1, refusal 2,
/// value 4, levels 8, mask 16, level 32, vector 64, clock 128.
pub fn compare(first: &[u8], second: &[u8], list: &mut [u64]) -> Compared {
    // SAFETY: slices are what the header asks for.
    unsafe { qsm_compare(first.as_ptr(), first.len(), second.as_ptr(), second.len(), list.as_mut_ptr(), list.len()) }
}

/// Judges a log of a trace: accepted exactly if it is, byte for byte, what a module fresh from reset answers.
pub fn judge(trace: &[u8], log: &[u8]) -> Judgement {
    // SAFETY: slices are what the header asks for.
    unsafe { qsm_judge(trace.as_ptr(), trace.len(), log.as_ptr(), log.len()) }
}
