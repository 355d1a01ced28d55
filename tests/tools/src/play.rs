//! `play [ROOM]`: a trace from standard input, played on a module fresh from reset.

use crate::Printed;
use qsm::{Module, ANSWER};

/// The log, in so many bytes of room or in enough. A stop goes to standard error: its refusal, the record's number and its place.
pub fn play(room: Option<usize>) -> Printed {
    let trace = crate::standard_input()?;
    let mut log = vec![0; room.unwrap_or(trace.len() * ANSWER)];
    let played = Module::new().play(&trace, &mut log);
    log.truncate(played.written);
    if played.stop != 0 {
        let record = played.written / ANSWER;
        eprintln!("stop {} record {record} byte {}", played.stop, played.read);
    }
    Ok(log)
}
