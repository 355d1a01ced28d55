//! Status flags that fall only when software has seen them set.

/// A set of flags and which of them a status read has shown.
/// A flag that is not set is never marked as seen.
#[derive(Clone, Copy, Debug, Default, PartialEq, Eq)]
pub struct Flags {
    set: u16,
    seen: u16,
}

impl Flags {
    pub fn new(set: u16) -> Self {
        Self { set, seen: 0 }
    }

    pub fn bits(self) -> u16 {
        self.set
    }

    pub fn any(self, bits: u16) -> bool {
        self.set & bits != 0
    }

    /// Raises flags. One that is set already keeps its mark.
    pub fn rise(&mut self, bits: u16) {
        self.set |= bits;
    }

    /// Takes flags away whether seen or not.
    pub fn clear(&mut self, bits: u16) {
        self.set &= !bits;
        self.seen &= !bits;
    }

    /// A status read: every flag now set is seen.
    pub fn see(&mut self) {
        self.seen |= self.set;
    }

    /// Lets those of `bits` fall that are set and seen.
    pub fn fall(&mut self, bits: u16) {
        self.clear(bits & self.seen);
    }
}
