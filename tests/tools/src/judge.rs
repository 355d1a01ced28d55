//! `judge TRACE LOG`: a log judged as that of a trace.

use crate::Printed;

/// The fields' names, in the order of their numbers 1, 2, 4 and so on.
const FIELDS: [&str; 8] = [
    "kind", "refusal", "value", "levels", "mask", "level", "vector", "clock",
];

/// `accepted`, or the first wrong answer and its field; then the trace's end or stop.
pub fn judge(trace: &[u8], log: &[u8]) -> Printed {
    let j = qsm::judge(trace, log);
    let verdict = match j.field {
        0 if j.number == 0 => "accepted".into(),
        f if f.is_power_of_two() => {
            format!("wrong {} {}", j.number, FIELDS[f.trailing_zeros() as usize])
        }
        f => return Err(format!("no field has the number {f}")),
    };
    let stop = match j.stop {
        0 => "end".into(),
        r => format!("stop {r}"),
    };
    Ok(format!("{verdict}\n{stop}\n").into_bytes())
}
