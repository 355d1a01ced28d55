//! `drivers`: events of the host and of two drivers on standard input, the answer's bytes in hexadecimal for each.

use crate::Printed;
use qsm::{Answer, Drivers};

fn hex<T: TryFrom<u32>>(word: &str) -> Result<T, String> {
    let n = u32::from_str_radix(word, 16).map_err(|_| format!("no hexadecimal number: {word}"))?;
    T::try_from(n).map_err(|_| format!("too big: {word}"))
}

/// Decimal; a number that a byte can't hold is no split.
fn split(word: &str) -> Result<u8, String> {
    let n: u64 = word.parse().map_err(|_| format!("no number: {word}"))?;
    Ok(u8::try_from(n).unwrap_or(u8::MAX))
}

/// A width with bit 7 for the supervisor.
fn width(word: &str) -> Result<(bool, u8), String> {
    let byte: u8 = hex(word)?;
    Ok((byte & 0x80 != 0, byte & 0x7F))
}

/// Whether the spindle driver is meant.
fn spindle(word: &str) -> Result<bool, String> {
    match word {
        "axis" => Ok(false),
        "spindle" => Ok(true),
        _ => Err(format!("no driver: {word}")),
    }
}

fn answer(d: &mut Drivers, line: &str) -> Result<Answer, String> {
    let words: Vec<&str> = line.split_whitespace().collect();
    Ok(match words.as_slice() {
        ["reset", s] => d.reset(split(s)?),
        ["hold", pins, rxd, clocks] => {
            let clocks = clocks.parse().map_err(|_| format!("no number: {clocks}"))?;
            d.hold(hex(pins)?, hex::<u8>(rxd)? != 0, clocks)
        }
        ["host", "read", w, offset] => {
            let (supervisor, w) = width(w)?;
            d.host_read(supervisor, w, hex(offset)?)
        }
        ["host", "write", w, offset, value] => {
            let (supervisor, w) = width(w)?;
            d.host_write(supervisor, w, hex(offset)?, hex(value)?)
        }
        [who, "read", w, offset] => {
            let (supervisor, w) = width(w)?;
            d.read(spindle(who)?, supervisor, w, hex(offset)?)
        }
        [who, "write", w, offset, value] => {
            let (supervisor, w) = width(w)?;
            d.write(spindle(who)?, supervisor, w, hex(offset)?, hex(value)?)
        }
        [who, "claim"] => d.claim(spindle(who)?),
        [who, "release"] => d.release(spindle(who)?),
        _ => return Err(format!("no such line: {line}")),
    })
}

pub fn drivers(text: &str) -> Printed {
    let mut d = Drivers::new();
    let mut printed = String::new();
    for line in text.lines() {
        for byte in answer(&mut d, line)?.bytes() {
            printed += &format!("{byte:02x}");
        }
        printed.push('\n');
    }
    Ok(printed.into_bytes())
}
