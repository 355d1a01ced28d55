//! `figures`: a trace from standard input, played record by record; after each answer, what the module counts.

use crate::Printed;
use qsm::{Module, ANSWER};

/// A line for each record answered: the noise figure of the word in SCDR, then frames taken and frames lost since the last reset.
pub fn figures() -> Printed {
    let trace = crate::standard_input()?;
    let mut module = Module::new();
    let mut lines = String::new();
    let mut at = 0;
    loop {
        let played = module.play(&trace[at..], &mut [0; ANSWER]);
        if played.written == 0 {
            return Ok(lines.into_bytes());
        }
        at += played.read;
        module = played.state;
        let (noise, taken, lost) = (module.noise(), module.taken(), module.lost());
        lines += &format!("{noise} {taken} {lost}\n");
    }
}
