//! Register settings by edition, as records in a buffer of which the first `used` bytes are in use.

c_struct!(
    /// An edition, and the register settings that it has.
    Edition {
        /// 1 to 65,535.
        number: u16,
        /// SCCR0.
        sccr0: u16,
        /// SCCR1.
        sccr1: u16,
        /// SPCR0.
        spcr0: u16,
        /// SPCR1.
        spcr1: u16,
    }
);

c_struct!(
    /// A change of the buffer.
    Changed {
        /// The used length after the call: the same where it is refused.
        used: usize,
        /// 3, 5, 6, 7 or 8; else 0.
        refusal: u8,
    }
);

c_struct!(
    /// An edition, given.
    Given {
        /// As it was added; zeros where the call is refused.
        edition: Edition,
        /// 5, 6 or 8; else 0.
        refusal: u8,
    }
);

extern "C" {
    fn qsm_editions_add(buffer: *mut u8, length: usize, used: usize, edition: Edition) -> Changed;
    fn qsm_editions_withdraw(buffer: *mut u8, length: usize, used: usize, number: u16) -> Changed;
    fn qsm_editions_get(buffer: *const u8, length: usize, used: usize, number: u16) -> Given;
    fn qsm_editions_newest(buffer: *const u8, length: usize, used: usize) -> Given;
}

// SAFETY, of the four calls: a slice is what the header asks for.

/// Adds an edition above all that were added before.
pub fn editions_add(buffer: &mut [u8], used: usize, edition: Edition) -> Changed {
    unsafe { qsm_editions_add(buffer.as_mut_ptr(), buffer.len(), used, edition) }
}

/// Withdraws an edition: it is not given any more.
pub fn editions_withdraw(buffer: &mut [u8], used: usize, number: u16) -> Changed {
    unsafe { qsm_editions_withdraw(buffer.as_mut_ptr(), buffer.len(), used, number) }
}

/// The edition of a number, if it is not withdrawn.
pub fn editions_get(buffer: &[u8], used: usize, number: u16) -> Given {
    unsafe { qsm_editions_get(buffer.as_ptr(), buffer.len(), used, number) }
}

/// The newest edition that is not withdrawn.
pub fn editions_newest(buffer: &[u8], used: usize) -> Given {
    unsafe { qsm_editions_newest(buffer.as_ptr(), buffer.len(), used) }
}
