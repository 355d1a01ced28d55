//! `check` and `plan`: set-points and a window on standard input, and for `check` a plan. An accepted plan is also loaded into a module and
//! run, and must raise SPIF at its clock and not before.

use crate::Printed;
use qsm::{Module, Plan, SetPoints};

/// What a script says. A number that no field can hold makes its set-point, or its pointer, one out of range.
struct Script {
    window: u64,
    points: SetPoints,
    plan: Option<Plan>,
}

const NO_POINTS: SetPoints = SetPoints {
    count: 0,
    selects: [0; 16],
    bits: [0; 16],
    words: [0; 16],
};

fn byte(word: &str) -> Result<u8, String> {
    let n: u64 = word.parse().map_err(|_| format!("no number: {word}"))?;
    Ok(u8::try_from(n).unwrap_or(u8::MAX))
}

fn hex(word: &str) -> Result<u64, String> {
    u64::from_str_radix(word, 16).map_err(|_| format!("no hexadecimal number: {word}"))
}

fn register(word: &str) -> Result<u16, String> {
    u16::try_from(hex(word)?).map_err(|_| format!("no word: {word}"))
}

fn set(points: &mut SetPoints, select: &str, bits: &str, word: &str) -> Result<(), String> {
    let (select, bits, word) = (byte(select)?, byte(bits)?, u16::try_from(hex(word)?));
    if let Some(at) = points.selects.get_mut(points.count as usize) {
        *at = select;
        points.bits[points.count as usize] = if word.is_ok() { bits } else { u8::MAX };
        points.words[points.count as usize] = word.unwrap_or(0);
    }
    points.count = points.count.saturating_add(1);
    Ok(())
}

fn entry(plan: &mut Plan, command: &str, word: &str) -> Result<(), String> {
    let command = u8::try_from(hex(command)?).map_err(|_| format!("no byte: {command}"))?;
    let word = register(word)?;
    if let Some(at) = plan.commands.get_mut(plan.count as usize) {
        *at = command;
        plan.words[plan.count as usize] = word;
    }
    plan.count = plan.count.saturating_add(1);
    Ok(())
}

fn script(text: &str) -> Result<Script, String> {
    let mut said = Script {
        window: 0,
        points: NO_POINTS,
        plan: None,
    };
    for line in text.lines() {
        let words: Vec<&str> = line.split_whitespace().collect();
        match (words.as_slice(), &mut said.plan) {
            (["window", clocks], _) => {
                said.window = clocks.parse().map_err(|_| format!("no number: {clocks}"))?
            }
            (["set", select, bits, word], _) => set(&mut said.points, select, bits, word)?,
            (["plan", first, last, spcr0, spcr1, spcr2, clock], _) => {
                said.plan = Some(Plan {
                    clock: clock.parse().map_err(|_| format!("no number: {clock}"))?,
                    spcr0: register(spcr0)?,
                    spcr1: register(spcr1)?,
                    spcr2: register(spcr2)?,
                    count: 0,
                    first: byte(first)?,
                    last: byte(last)?,
                    commands: [0; 16],
                    words: [0; 16],
                })
            }
            (["entry", command, word], Some(plan)) => entry(plan, command, word)?,
            ([], _) => {}
            _ => return Err(format!("no such line: {line}")),
        }
    }
    Ok(said)
}

/// SPIF, read from SPSR.
fn spif(m: &mut Module) -> bool {
    m.read(true, 1, 0x1F).value & 0x80 != 0
}

/// The plan on a module with MOSI, SCK and the PCS assigned outputs: SPIF is clear up to the clock before the stated one, and set at it.
fn run(plan: Plan) -> Result<(), String> {
    let mut m = Module::new();
    m.write(true, 2, 0x16, 0x7A7E);
    for put in qsm::plan_writes(plan) {
        if m.write(true, put.width, put.offset, put.value).refusal != 0 {
            return Err(format!("the write at {:x} is refused", put.offset));
        }
    }
    let mut left = plan.clock - 1;
    while left > 0 {
        let clocks = u32::try_from(left).unwrap_or(u32::MAX);
        m.hold(0, true, clocks);
        left -= u64::from(clocks);
    }
    if spif(&mut m) {
        return Err("SPIF before the stated clock".into());
    }
    m.hold(0, true, 1);
    if !spif(&mut m) {
        return Err("no SPIF at the stated clock".into());
    }
    Ok(())
}

pub fn check(text: &str) -> Printed {
    let said = script(text)?;
    let plan = said.plan.ok_or("no plan to check")?;
    if !qsm::plan_accepts(said.points, said.window, plan) {
        return Ok(b"rejected\n".to_vec());
    }
    run(plan)?;
    Ok(b"accepted\n".to_vec())
}

pub fn plan(text: &str) -> Printed {
    let said = script(text)?;
    let planned = qsm::plan(said.points, said.window);
    if planned.refusal != 0 {
        return Ok(format!("refusal {}\n", planned.refusal).into_bytes());
    }
    let p = planned.plan;
    let mut lines = format!(
        "plan {} {} {:04x} {:04x} {:04x} {}\n",
        p.first, p.last, p.spcr0, p.spcr1, p.spcr2, p.clock
    );
    for k in 0..p.count as usize {
        lines += &format!("entry {:02x} {:04x}\n", p.commands[k], p.words[k]);
    }
    Ok(lines.into_bytes())
}
