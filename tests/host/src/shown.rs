//! Which flags the status reads have shown, to see that the events tell something.

use crate::event::Event;
use std::fmt;

/// Register, bit and name.
const FLAGS: [(u16, u32, &str); 12] = [
    (0x0C, 8, "TDRE"),
    (0x0C, 7, "TC"),
    (0x0C, 6, "RDRF"),
    (0x0C, 5, "RAF"),
    (0x0C, 4, "IDLE"),
    (0x0C, 3, "OR"),
    (0x0C, 2, "NF"),
    (0x0C, 1, "FE"),
    (0x0C, 0, "PF"),
    (0x1E, 7, "SPIF"),
    (0x1E, 6, "MODF"),
    (0x1E, 5, "HALTA"),
];

#[derive(Default)]
pub struct Shown([u64; FLAGS.len()]);

impl Shown {
    /// Counts the flags that the read of a status word shows.
    pub fn count(&mut self, event: Event, value: u32) {
        let Event::Read {
            width: 2, offset, ..
        } = event
        else {
            return;
        };
        for (count, (register, bit, _)) in self.0.iter_mut().zip(FLAGS) {
            if offset == register && value >> bit & 1 == 1 {
                *count += 1;
            }
        }
    }

    pub fn all(&self) -> bool {
        self.0.iter().all(|&count| count > 0)
    }
}

impl fmt::Display for Shown {
    fn fmt(&self, f: &mut fmt::Formatter) -> fmt::Result {
        for (count, (_, _, name)) in self.0.iter().zip(FLAGS) {
            write!(f, "{name} {count} ")?;
        }
        write!(f, "times")
    }
}
