//! `editions`: a script on standard input, of calls on a buffer of editions and its used length.

use crate::{number, Printed};
use qsm::{Changed, Edition, Given};

fn bytes(hex: &str) -> Result<Vec<u8>, String> {
    let digits = if hex == "-" { "" } else { hex };
    (0..digits.len())
        .step_by(2)
        .map(|i| {
            let pair = digits.get(i..i + 2).ok_or(format!("no byte: {hex}"))?;
            u8::from_str_radix(pair, 16).map_err(|_| format!("no byte: {pair}"))
        })
        .collect()
}

fn word(hex: &str) -> Result<u16, String> {
    u16::from_str_radix(hex, 16).map_err(|_| format!("no word: {hex}"))
}

fn edition(decimal: &str) -> Result<u16, String> {
    decimal
        .parse()
        .map_err(|_| format!("no edition: {decimal}"))
}

/// The line of a change. What it leaves of the buffer is as it was where it is refused, and past its record.
fn changed(before: &[u8], after: &[u8], used: &mut usize, size: usize, r: Changed) -> Result<String, String> {
    if r.refusal != 0 {
        if after != before || r.used != *used {
            return Err("a refusal that changes the buffer".into());
        }
        return Ok(format!("refusal {}\n", r.refusal));
    }
    if r.used != *used + size || after[..*used] != before[..*used] || after[r.used..] != before[r.used..] {
        return Err("a change beside its record".into());
    }
    *used = r.used;
    Ok(format!("ok {}\n", r.used))
}

fn given(r: Given) -> String {
    let e = r.edition;
    if r.refusal != 0 {
        return format!("refusal {}\n", r.refusal);
    }
    format!(
        "edition {} {:04x} {:04x} {:04x} {:04x}\n",
        e.number, e.sccr0, e.sccr1, e.spcr0, e.spcr1
    )
}

fn dumped(buffer: &[u8], used: usize) -> String {
    let hex: String = buffer.iter().map(|b| format!("{b:02x}")).collect();
    format!("{used} {}\n", if hex.is_empty() { "-" } else { &hex })
}

/// A line for each call, as the script has them.
pub fn editions() -> Printed {
    let script = String::from_utf8(crate::standard_input()?).map_err(|e| e.to_string())?;
    let mut buffer = Vec::new();
    let mut used = 0;
    let mut lines = String::new();
    for line in script.lines() {
        let words: Vec<&str> = line.split_whitespace().collect();
        let before = buffer.clone();
        lines += &match words[..] {
            [] => String::new(),
            ["size", length] => {
                buffer = vec![0; number(length)?];
                used = 0;
                String::new()
            }
            ["load", length, hex] => {
                buffer = bytes(hex)?;
                used = number(length)?;
                String::new()
            }
            ["add", n, sccr0, sccr1, spcr0, spcr1] => {
                let e = Edition {
                    number: edition(n)?,
                    sccr0: word(sccr0)?,
                    sccr1: word(sccr1)?,
                    spcr0: word(spcr0)?,
                    spcr1: word(spcr1)?,
                };
                let r = qsm::editions_add(&mut buffer, used, e);
                changed(&before, &buffer, &mut used, 11, r)?
            }
            ["withdraw", n] => {
                let r = qsm::editions_withdraw(&mut buffer, used, edition(n)?);
                changed(&before, &buffer, &mut used, 3, r)?
            }
            ["get", n] => given(qsm::editions_get(&buffer, used, edition(n)?)),
            ["newest"] => given(qsm::editions_newest(&buffer, used)),
            ["dump"] => dumped(&buffer, used),
            _ => return Err(format!("no call: {line}")),
        };
    }
    Ok(lines.into_bytes())
}
