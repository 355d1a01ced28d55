//! The SCI's receive line: start search, bit votes and idle count, one call a sample.

/// A frame that came to its stop bit's RT10.
#[derive(Clone, Copy, Debug, PartialEq, Eq)]
pub struct Frame {
    pub word: u16,
    /// Samples that disagreed in its votes, and ones of its start bit.
    pub noise: u8,
    pub stop: bool,
}

/// What a sample brought.
#[derive(Clone, Copy, Debug, PartialEq, Eq)]
pub enum Heard {
    Nothing,
    Start,
    Abandoned,
    Frame(Frame),
}

/// The default value is the state in which a clear RE keeps it.
#[derive(Clone, Debug, Default, PartialEq, Eq)]
pub struct Receiver {
    /// The last three samples since RE rose, inside a frame or not.
    last_three: u8,
    /// RT number of the last sample, 1 to 16; 0 while searching.
    rt: u8,
    /// Bit of the frame: 0 is the start bit, then data, then stop.
    bit: u16,
    /// Ones among the samples that vote.
    ones: u8,
    noise: u8,
    /// The last bit decided; the start bit counts as a zero.
    last_one: bool,
    /// An adjustment has set RT1 of this bit.
    adjusted: bool,
    word: u16,
    idle_count: u8,
    /// A frame has entered SCDR since the idle count was last full.
    pub frame_since_idle: bool,
}

impl Receiver {
    /// Counts ones in a row; true when the count reaches `full`, where it stops.
    pub fn idle(&mut self, level: bool, full: u8) -> bool {
        if !level {
            self.idle_count = 0;
        } else if self.idle_count < full {
            self.idle_count += 1;
            return self.idle_count == full;
        }
        false
    }

    /// ILT=1: the count begins anew when a frame ends.
    pub fn restart_idle(&mut self) {
        self.idle_count = 0;
    }

    pub fn sample(&mut self, level: bool, data_bits: u16) -> Heard {
        let three_ones = self.last_three == 0b111;
        self.last_three = (self.last_three << 1 | u8::from(level)) & 0b111;
        if self.rt == 0 {
            return self.search(level, three_ones);
        }
        if three_ones && !level && self.adjust(data_bits) {
            return Heard::Nothing;
        }
        self.next_rt();
        match self.rt {
            3 | 5 | 7 if self.bit == 0 => self.verify_start(level),
            8..=10 => self.vote(level, data_bits),
            _ => Heard::Nothing,
        }
    }

    /// A zero after three ones is RT1 of a start bit.
    fn search(&mut self, level: bool, three_ones: bool) -> Heard {
        if level || !three_ones {
            return Heard::Nothing;
        }
        self.rt = 1;
        self.bit = 0;
        self.ones = 0;
        self.noise = 0;
        self.last_one = false;
        self.adjusted = false;
        self.word = 0;
        Heard::Start
    }

    fn next_rt(&mut self) {
        if self.rt == 16 {
            self.rt = 1;
            self.bit += 1;
            self.adjusted = false;
        } else {
            self.rt += 1;
        }
    }

    /// A zero after three ones: in a data bit after a one it becomes RT1 of the bit that its place is near to, if that is a data bit.
    fn adjust(&mut self, data_bits: u16) -> bool {
        if self.bit == 0 || self.bit > data_bits || !self.last_one {
            return false;
        }
        match self.rt {
            1..=6 if !self.adjusted => {}
            10..=15 if self.bit < data_bits => self.bit += 1,
            _ => return false,
        }
        self.rt = 1;
        self.ones = 0;
        self.adjusted = true;
        true
    }

    /// RT3, RT5, RT7 of the start bit: from two ones on it is given up, one alone is noise.
    fn verify_start(&mut self, level: bool) -> Heard {
        self.ones += u8::from(level);
        if self.rt < 7 {
            return Heard::Nothing;
        }
        let ones = std::mem::take(&mut self.ones);
        if ones >= 2 {
            self.rt = 0;
            return Heard::Abandoned;
        }
        self.noise += ones;
        Heard::Nothing
    }

    /// RT8, RT9, RT10: the bit is their majority. A start bit stands whatever they are.
    fn vote(&mut self, level: bool, data_bits: u16) -> Heard {
        self.ones += u8::from(level);
        if self.rt < 10 {
            return Heard::Nothing;
        }
        let ones = std::mem::take(&mut self.ones);
        let majority = ones >= 2;
        if self.bit == 0 {
            self.noise += ones;
            return Heard::Nothing;
        }
        self.noise += ones.min(3 - ones);
        if self.bit <= data_bits {
            self.word |= u16::from(majority) << (self.bit - 1);
            self.last_one = majority;
            return Heard::Nothing;
        }
        self.rt = 0;
        Heard::Frame(Frame {
            word: self.word,
            noise: self.noise,
            stop: majority,
        })
    }
}
