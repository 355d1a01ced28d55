//! Recorded events: a trace is played, its answers make a log.

use crate::access::Refusal;
use crate::module::{Answer, Module};

/// Bytes of one answer.
pub const ANSWER_LENGTH: usize = 18;

/// How far a trace was played.
#[derive(Clone, Copy, Debug, PartialEq, Eq)]
pub struct Played {
    /// Bytes of the trace that were answered.
    pub read: usize,
    /// Bytes of the output that were written.
    pub written: usize,
    /// 5, 6, 7 or 10, or 0 at the end of the trace.
    pub stop: u8,
}

/// Plays `trace` on `module` and writes the answers to the front of `out`.
pub fn play(module: &mut Module, trace: &[u8], out: &mut [u8]) -> Played {
    let mut played = Played {
        read: 0,
        written: 0,
        stop: 0,
    };
    while played.read < trace.len() {
        match step(module, &trace[played.read..], &mut out[played.written..]) {
            Ok(length) => {
                played.read += length;
                played.written += ANSWER_LENGTH;
            }
            Err(refusal) => {
                played.stop = refusal as u8;
                break;
            }
        }
    }
    played
}

/// Plays the first record and gives its length. Refusals 5, 6, 7, 10, in this order.
fn step(module: &mut Module, trace: &[u8], out: &mut [u8]) -> Result<usize, Refusal> {
    let length = record_length(trace).ok_or(Refusal::Kind)?;
    let record = trace.get(..length).ok_or(Refusal::Cut)?;
    let place = out.get_mut(..ANSWER_LENGTH).ok_or(Refusal::Full)?;
    let answer = event(module, record).ok_or(Refusal::Kind)?;
    if answer.refusal == Refusal::Clocks as u8 {
        return Err(Refusal::Clocks);
    }
    place.copy_from_slice(&answer.bytes());
    Ok(length)
}

/// Length of the record that begins here, by its kind.
fn record_length(trace: &[u8]) -> Option<usize> {
    match trace.first()? {
        0x01 => Some(1),
        0x02 => Some(5),
        0x03 => Some(4),
        0x04 => Some(8),
        0x05 => Some(7),
        _ => None,
    }
}

fn event(module: &mut Module, record: &[u8]) -> Option<Answer> {
    let answer = match *record {
        [0x01] => module.reset(),
        [0x02, pins, rxd, a, b] => module.hold(pins, rxd, u32::from_be_bytes([0, 0, a, b])),
        [0x05, pins, rxd, a, b, c, d] => module.hold(pins, rxd, u32::from_be_bytes([a, b, c, d])),
        [0x03, access, a, b] => {
            let (supervisor, width) = privilege_and_width(access);
            module.read(supervisor, width, u16::from_be_bytes([a, b]))
        }
        [0x04, access, a, b, c, d, e, f] => {
            let (supervisor, width) = privilege_and_width(access);
            let value = u32::from_be_bytes([c, d, e, f]);
            module.write(supervisor, width, u16::from_be_bytes([a, b]), value)
        }
        _ => return None,
    };
    Some(answer)
}

/// Bit 7 is the supervisor's, the rest is the width.
fn privilege_and_width(access: u8) -> (bool, u8) {
    (access & 0x80 != 0, access & 0x7F)
}
