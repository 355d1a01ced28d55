//! `plans`: random plans that the checker accepts, each written as a trace of holds of one clock and played by `replay`. The pins must show
//! every set-point's select and word, SCK must turn at each edge, and SPIF must rise at the plan's clock and not before.

use crate::Printed;
use host::random::Random;
use qsm::{Plan, SetPoints};
use std::io::Write;
use std::process::{Command, Stdio};

/// A set-point's entry as document 01 times it, counted from its clock 1.
struct Entry {
    select: u8,
    bits: u64,
    word: u16,
    /// Clocks before its clock 1.
    start: u64,
    /// The clock of edge 1, and the clocks from one edge to the next.
    first_edge: u64,
    half: u64,
}

impl Entry {
    fn edge(&self, k: u64) -> u64 {
        self.start + self.first_edge + self.half * (k - 1)
    }

    fn edges_at(&self, clock: u64) -> u64 {
        (1..=2 * self.bits).filter(|&k| self.edge(k) <= clock).count() as u64
    }
}

fn set_points(random: &mut Random) -> SetPoints {
    let mut points = SetPoints { count: random.between(1, 16) as u8, selects: [0; 16], bits: [0; 16], words: [0; 16] };
    let other = random.between(9, 16) as u8;
    for i in 0..usize::from(points.count) {
        points.selects[i] = random.below(16) as u8;
        points.bits[i] = if random.percent(40) { 8 } else { other };
        points.words[i] = random.some((1 << points.bits[i]) - 1) as u16;
    }
    points
}

/// The proposal, moved to another first entry, with other delays, rate, polarity and phase; and its entries by document 01's rule.
fn varied(random: &mut Random, points: &SetPoints, mut plan: Plan) -> (Plan, Vec<Entry>) {
    let rate = random.between(2, 12);
    let before = random.pick(&[0u32, 1, 2, 40, 127]);
    let after = random.pick(&[0u32, 1, 1, 2, 3]);
    plan.spcr0 = plan.spcr0 & 0xFC00 | (random.some(0x0300) | rate) as u16;
    plan.spcr1 = 0x8000 | (before << 8 | after) as u16;
    plan.first = random.below(16) as u8;
    plan.last = (plan.first + plan.count - 1) % 16;
    let (mut start, mut entries) = (0, Vec::new());
    for i in 0..usize::from(plan.count) {
        plan.commands[i] = plan.commands[i] & 0x4F | random.some(0xB0) as u8;
        let entry = Entry {
            select: points.selects[i],
            bits: u64::from(points.bits[i]),
            word: points.words[i],
            start,
            first_edge: match (plan.commands[i] & 0x10, before) {
                (0, _) => u64::from(rate),
                (_, 0) => 128,
                (_, clocks) => u64::from(clocks),
            },
            half: u64::from(rate),
        };
        plan.clock = entry.edge(2 * entry.bits);
        start = plan.clock
            + match (plan.commands[i] & 0x20, after) {
                (0, _) => 17,
                (_, 0) => 8192,
                (_, length) => 32 * u64::from(length),
            };
        entries.push(entry);
    }
    (plan, entries)
}

/// The plan's writes, then a hold for each clock; SPSR is read before the last and after it.
fn trace(plan: Plan) -> Vec<u8> {
    let mut trace = vec![1, 4, 0x82, 0, 0x16, 0, 0, 0x7A, 0x7E];
    for put in qsm::plan_writes(plan) {
        trace.extend([4, 0x80 | put.width]);
        trace.extend(put.offset.to_be_bytes());
        trace.extend(put.value.to_be_bytes());
    }
    for clock in 1..=plan.clock {
        if clock == plan.clock {
            trace.extend([3, 0x81, 0, 0x1F]);
        }
        trace.extend([2, 0xFF, 1, 0, 1]);
    }
    trace.extend([3, 0x81, 0, 0x1F]);
    trace
}

fn played(replay: &str, trace: Vec<u8>) -> Result<Vec<u8>, String> {
    let mut child = Command::new(replay)
        .stdin(Stdio::piped())
        .stdout(Stdio::piped())
        .spawn()
        .map_err(|e| format!("{replay}: {e}"))?;
    let mut input = child.stdin.take().ok_or("no standard input")?;
    let writer = std::thread::spawn(move || input.write_all(&trace));
    let output = child.wait_with_output().map_err(|e| format!("{replay}: {e}"))?;
    writer.join().map_err(|_| "the writer stopped")?.map_err(|e| format!("{replay}: {e}"))?;
    Ok(output.stdout)
}

/// What the log of a plan's trace shows, held to the plan.
fn judge(plan: &Plan, entries: &[Entry], log: &[u8]) -> Result<(), String> {
    let answers: Vec<&[u8]> = log.chunks(qsm::ANSWER).collect();
    let setup = 2 + qsm::plan_writes(*plan).count();
    if answers.len() != setup + plan.clock as usize + 2 || answers.iter().any(|a| a[1] != 0) {
        return Err("an answer is missing or refused".into());
    }
    let (before, after) = (answers[answers.len() - 3], answers[answers.len() - 1]);
    if before[5] & 0x80 != 0 || after[5] & 0x80 == 0 {
        return Err("SPIF does not rise at the stated clock".into());
    }
    // The answer to the hold of a clock, up to the one before the last.
    let pins = |clock: u64| answers[setup + clock as usize - 1][6];
    let (cpol, cpha) = (plan.spcr0 & 0x0200 != 0, plan.spcr0 & 0x0100 != 0);
    for (number, entry) in entries.iter().enumerate() {
        for clock in entry.start + 1..entry.edge(2 * entry.bits) {
            if (pins(clock) & 4 != 0) != (cpol ^ (entry.edges_at(clock) % 2 == 1)) {
                return Err(format!("SCK at clock {clock}, entry {number}"));
            }
            if pins(clock) >> 3 & 15 != entry.select {
                return Err(format!("select at clock {clock}, entry {number}"));
            }
        }
        let mut word = 0;
        for bit in 0..entry.bits {
            let clock = if cpha { entry.edge(2 * bit + 2) - 1 } else { entry.edge(2 * bit + 1) };
            word = word << 1 | u16::from(pins(clock) & 2 != 0);
        }
        if word != entry.word {
            return Err(format!("entry {number} sends {word:04X} and not {:04X}", entry.word));
        }
    }
    Ok(())
}

pub fn plans(replay: &str, count: usize, seed: usize) -> Printed {
    let mut random = Random::new(seed as u64);
    let mut clocks = 0;
    for number in 0..count {
        let points = set_points(&mut random);
        let proposal = qsm::plan(points, u64::MAX);
        let (plan, entries) = varied(&mut random, &points, proposal.plan);
        let said = if proposal.refusal != 0 {
            Err("no proposal".into())
        } else if !qsm::plan_accepts(points, plan.clock, plan) || qsm::plan_accepts(points, plan.clock - 1, plan) {
            Err("the checker does not accept it just at its clock".into())
        } else {
            played(replay, trace(plan)).and_then(|log| judge(&plan, &entries, &log))
        };
        said.map_err(|e: String| format!("seed {seed}, plan {number}: {e}"))?;
        clocks += plan.clock;
    }
    Ok(format!("{count} plans over {clocks} clocks do what they say\n").into_bytes())
}
