//! What an access touches: its form, the map, and the words it is made of.

/// The refusals, numbered as in the papers.
#[derive(Clone, Copy, Debug, PartialEq, Eq, PartialOrd, Ord)]
#[repr(u8)]
pub enum Refusal {
    /// Width, alignment or size of the value.
    Form = 1,
    /// A byte outside the map.
    Unmapped = 2,
    /// A bit or setting that is not modelled.
    Unmodelled = 3,
    /// A guarded setting would change under a working half.
    Guarded = 4,
    /// Unknown kind of record.
    Kind = 5,
    /// The trace ends inside the record.
    Cut = 6,
    /// No room for one more answer.
    Full = 7,
    /// The clocks since reset would pass 2^64 - 1.
    Clocks = 10,
}

/// The part of an access that lies in one aligned word.
#[derive(Clone, Copy, Debug)]
pub struct Half {
    /// Offset of the word, even.
    pub offset: u16,
    /// Bits of the bytes that are touched.
    mask: u16,
    /// Written value, in place.
    data: u16,
}

impl Half {
    pub fn upper(self) -> bool {
        self.mask & 0xFF00 != 0
    }

    pub fn lower(self) -> bool {
        self.mask & 0x00FF != 0
    }

    /// The bits written as one.
    pub fn ones(self) -> u16 {
        self.data & self.mask
    }

    /// The bits written as zero.
    pub fn zeros(self) -> u16 {
        !self.data & self.mask
    }

    /// `old` with the touched bytes replaced.
    pub fn merged(self, old: u16) -> u16 {
        (old & !self.mask) | self.ones()
    }

    /// Whether the write alters one of `bits` of `old`.
    pub fn changes(self, old: u16, bits: u16) -> bool {
        (self.merged(old) ^ old) & bits != 0
    }
}

/// A well-formed access to mapped bytes: one word or part of it, or two words in address order.
#[derive(Clone, Copy, Debug)]
pub struct Access {
    pub first: Half,
    pub second: Option<Half>,
}

impl Access {
    /// Refusals 1 and 2. A read gives `value` 0.
    pub fn decode(width: u8, offset: u16, value: u32) -> Result<Self, Refusal> {
        let odd = offset & 1 != 0;
        let well_formed = match width {
            1 => value <= 0xFF,
            2 => !odd && value <= 0xFFFF,
            4 => !odd,
            _ => false,
        };
        if !well_formed {
            return Err(Refusal::Form);
        }
        let start = u32::from(offset);
        if !(start..start + u32::from(width)).all(mapped) {
            return Err(Refusal::Unmapped);
        }
        let low = value as u16;
        let half = |offset, mask, data| Half { offset, mask, data };
        let (first, second) = match width {
            1 if odd => (half(offset - 1, 0x00FF, low), None),
            1 => (half(offset, 0xFF00, low << 8), None),
            2 => (half(offset, 0xFFFF, low), None),
            _ => (
                half(offset, 0xFFFF, (value >> 16) as u16),
                Some(half(offset + 2, 0xFFFF, low)),
            ),
        };
        Ok(Self { first, second })
    }

    /// The value of a read, from the words read.
    pub fn value(width: u8, offset: u16, first: u16, second: u16) -> u32 {
        match width {
            1 if offset & 1 != 0 => u32::from(first & 0x00FF),
            1 => u32::from(first >> 8),
            2 => u32::from(first),
            _ => u32::from(first) << 16 | u32::from(second),
        }
    }
}

/// The register map, byte by byte.
fn mapped(byte: u32) -> bool {
    matches!(
        byte,
        0x00..=0x01 | 0x04..=0x05 | 0x08..=0x0F | 0x14..=0x1F | 0x100..=0x14F
    )
}
