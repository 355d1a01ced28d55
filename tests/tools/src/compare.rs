//! `compare FILE_A FILE_B ROOM`: two logs, compared into a list of so many numbers.

use crate::Printed;

/// What stands in the list before a comparison: no number of an answer or sum of fields.
const BEFORE: u64 = 0xEEEE_EEEE_EEEE_EEEE;

/// A line for each differing answer, the count, the surplus; or the refusal. The list past them must be as it was.
pub fn compare(first: &[u8], second: &[u8], room: usize) -> Printed {
    let mut list = vec![BEFORE; room];
    let r = qsm::compare(first, second, &mut list);
    let count = r.count as usize;
    if list[2 * count..].iter().any(|&n| n != BEFORE) {
        return Err("the list is changed past its count".into());
    }
    if r.refusal != 0 {
        if count != 0 || r.second || r.length != 0 {
            return Err("a refusal with a count or a surplus".into());
        }
        return Ok(format!("refusal {}\n", r.refusal).into_bytes());
    }
    let mut lines = String::new();
    for pair in list[..2 * count].chunks(2) {
        lines += &format!("{} {}\n", pair[0], pair[1]);
    }
    let longer = if r.second { "second" } else { "first" };
    lines += &format!("count {count}\nsurplus {longer} {} {}\n", r.start, r.length);
    Ok(lines.into_bytes())
}
