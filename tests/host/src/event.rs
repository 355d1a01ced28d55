//! An event, and its record in a trace.

#[derive(Clone, Copy, Debug)]
pub enum Event {
    Reset,
    Hold {
        pins: u8,
        rxd: bool,
        clocks: u32,
    },
    Read {
        supervisor: bool,
        width: u8,
        offset: u16,
    },
    Write {
        supervisor: bool,
        width: u8,
        offset: u16,
        value: u32,
    },
}

/// A supervisor's read.
pub fn read(width: u8, offset: u16) -> Event {
    Event::Read {
        supervisor: true,
        width,
        offset,
    }
}

/// A supervisor's write.
pub fn write(width: u8, offset: u16, value: u32) -> Event {
    Event::Write {
        supervisor: true,
        width,
        offset,
        value,
    }
}

impl Event {
    /// The record: kind and body. A width has seven bits there. Holds are of kind 02 or 05, those that fit both by turns.
    pub fn record(&self) -> Vec<u8> {
        let access = |supervisor: bool, width: u8| u8::from(supervisor) << 7 | width & 0x7F;
        match *self {
            Self::Reset => vec![0x01],
            Self::Hold { pins, rxd, clocks } => {
                let [a, b, c, d] = clocks.to_be_bytes();
                if clocks > 0xFFFF || clocks % 3 == 1 {
                    vec![0x05, pins, u8::from(rxd), a, b, c, d]
                } else {
                    vec![0x02, pins, u8::from(rxd), c, d]
                }
            }
            Self::Read {
                supervisor,
                width,
                offset,
            } => {
                let [a, b] = offset.to_be_bytes();
                vec![0x03, access(supervisor, width), a, b]
            }
            Self::Write {
                supervisor,
                width,
                offset,
                value,
            } => {
                let mut record = vec![0x04, access(supervisor, width)];
                record.extend(offset.to_be_bytes());
                record.extend(value.to_be_bytes());
                record
            }
        }
    }
}
