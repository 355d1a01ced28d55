//! An index of a trace: for every 256th record a mark, which is two numbers, its place in bytes and the resets before it.

c_struct!(
    /// An index, built or extended.
    Indexed {
        /// Marks that the list holds now; refused: that it would have to hold.
        marks: usize,
        /// Records of the trace, up to a stop.
        records: u64,
        /// Where they end, in bytes.
        place: u64,
        /// Resets among them.
        resets: u64,
        /// Why the walk stopped: 5 or 6; 0 at the end of the trace.
        stop: u8,
        /// 7, and the list is as it was; else 0.
        refusal: u8,
    }
);

c_struct!(
    /// A record, looked up.
    Found {
        /// Where it starts, in bytes; 0 where it is not there.
        place: u64,
        /// Resets before it.
        resets: u64,
        /// Records that were walked over to it: fewer than 256 from a mark of its own.
        walked: u64,
        /// 2 where there is no such record; else 0.
        refusal: u8,
    }
);

extern "C" {
    fn qsm_index_build(trace: *const u8, length: usize, marks: *mut u64, room: usize) -> Indexed;
    fn qsm_index_extend(trace: *const u8, length: usize, marks: *mut u64, room: usize, count: usize) -> Indexed;
    fn qsm_index_find(
        trace: *const u8,
        length: usize,
        marks: *const u64,
        room: usize,
        count: usize,
        number: u64,
    ) -> Found;
}

// SAFETY, of the three calls: slices are what the header asks for.

/// Builds the index of a trace in a list of numbers.
pub fn index_build(trace: &[u8], marks: &mut [u64]) -> Indexed {
    unsafe { qsm_index_build(trace.as_ptr(), trace.len(), marks.as_mut_ptr(), marks.len()) }
}

/// Extends an index that has so many marks, after records were added at the trace's end.
pub fn index_extend(trace: &[u8], marks: &mut [u64], count: usize) -> Indexed {
    unsafe { qsm_index_extend(trace.as_ptr(), trace.len(), marks.as_mut_ptr(), marks.len(), count) }
}

/// Looks a record up by so many marks, of the trace or of a beginning of it.
pub fn index_find(trace: &[u8], marks: &[u64], count: usize, number: u64) -> Found {
    unsafe { qsm_index_find(trace.as_ptr(), trace.len(), marks.as_ptr(), marks.len(), count, number) }
}
