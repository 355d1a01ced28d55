//! `lines PERIOD ROOM`: a trace from standard input, replayed with polling; the lines and drops that come of it.

use crate::Printed;
use qsm::Lines;

/// What stands in the buffer before a call: no character of a line.
const BEFORE: u8 = 0xEE;

const CAUSES: [&str; 6] = ["none", "FE", "PF", "NF", "length", "OR"];

/// A line for each line and drop, and the end or the stop; or the refusal. The buffer past a line's characters must be as it was, and all of it
/// where there is no line.
pub fn lines(period: u32, room: usize) -> Printed {
    let trace = crate::standard_input()?;
    let mut state = Lines::new();
    let mut printed = String::new();
    loop {
        let mut buffer = vec![BEFORE; room];
        let told = state.next(&trace, period, &mut buffer);
        if buffer[told.length as usize..].iter().any(|&b| b != BEFORE) {
            return Err("the buffer is changed past the line".into());
        }
        state = told.state;
        let noise = state.noise.last;
        if noise.total < noise.worst as u64 || told.kind == 1 && noise.total > 0 || told.kind == 2 && told.cause == 3 && noise.total == 0 {
            return Err(format!("noise total {}, worst {} of line {}", noise.total, noise.worst, told.number));
        }
        match told.kind {
            0 => return Ok((printed + "end\n").into_bytes()),
            1 => {
                let hex: String = buffer[..told.length as usize].iter().map(|b| format!("{b:02x}")).collect();
                printed += &format!("line {} {}\n", told.number, if hex.is_empty() { "-" } else { &hex });
            }
            2 => printed += &format!("drop {} {}\n", told.number, CAUSES[told.cause as usize]),
            3 => return Ok((printed + &format!("stop {}\n", told.refusal)).into_bytes()),
            4 => return Ok(format!("refusal {}\n", told.refusal).into_bytes()),
            kind => return Err(format!("a call that tells {kind}")),
        }
    }
}
