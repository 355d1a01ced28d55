//! `index MARKS` and `find TRACE NUMBER`: the marks of a trace, and a record looked up by them.

use crate::Printed;
use qsm::Indexed;

/// What stands in the list before: no place and no number of resets.
const BEFORE: u64 = 0xEEEE_EEEE_EEEE_EEEE;

/// Builds the marks, and again in two steps, the second from marks of a beginning; the two must agree, and nothing past them may change.
fn built(trace: &[u8], room: usize) -> Result<(Indexed, Vec<u64>), String> {
    let mut marks = vec![BEFORE; 2 * room];
    let r = qsm::index_build(trace, &mut marks);
    let used = if r.refusal == 0 { 2 * r.marks } else { 0 };
    if marks[used..].iter().any(|&n| n != BEFORE) {
        return Err("a number changed past the marks".into());
    }
    for part in [trace.len() / 3, trace.len() / 2, trace.len().saturating_sub(1)] {
        let mut grown = vec![BEFORE; 2 * room];
        let first = qsm::index_build(&trace[..part], &mut grown);
        if first.refusal != 0 {
            continue;
        }
        let before = grown.clone();
        let second = qsm::index_extend(trace, &mut grown, first.marks);
        if grown[..2 * first.marks] != before[..2 * first.marks] {
            return Err("an old mark is changed".into());
        }
        if second.refusal != r.refusal || second.records != r.records || second.marks != r.marks {
            return Err("an extended index that is not the one built afresh".into());
        }
        if r.refusal == 0 && grown != marks || r.refusal != 0 && grown != before {
            return Err("an extension with other marks".into());
        }
    }
    Ok((r, marks))
}

pub fn index(trace: &[u8], room: usize) -> Printed {
    let (r, marks) = built(trace, room)?;
    if r.refusal != 0 {
        return Ok(format!("refusal {}\n", r.refusal).into_bytes());
    }
    let mut lines = String::new();
    for mark in marks[..2 * r.marks].chunks(2) {
        lines += &format!("mark {} {}\n", mark[0], mark[1]);
    }
    lines += &format!("records {}\n", r.records);
    Ok(lines.into_bytes())
}

/// With the marks of the whole trace, where it has no more than an index may, of beginnings of it, and with none: all must agree.
pub fn find(trace: &[u8], number: u64) -> Printed {
    let (r, marks) = built(trace, 4096)?;
    // A list that was refused has no mark in it.
    let count = if r.refusal == 0 { r.marks } else { 0 };
    let f = qsm::index_find(trace, &marks, count, number);
    if f.refusal == 0 && r.refusal == 0 && f.walked > 255 {
        return Err("a walk of more than 255 records".into());
    }
    for part in [0, trace.len() / 3, trace.len() / 2] {
        let (_, some) = built(&trace[..part], 4096)?;
        let count = some.iter().take_while(|&&n| n != BEFORE).count() / 2;
        let g = qsm::index_find(trace, &some, count, number);
        if (g.place, g.resets, g.refusal) != (f.place, f.resets, f.refusal) {
            return Err("marks of a beginning find another place".into());
        }
    }
    if f.refusal != 0 {
        return Ok(format!("refusal {}\n", f.refusal).into_bytes());
    }
    Ok(format!("at {} {}\n", f.place, f.resets).into_bytes())
}
