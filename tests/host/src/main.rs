//! Drives the library and the Rust implementation of `reference/` with the same random events and compares every answer.
//!
//! usage: host [SEED..]

mod event;
mod fields;
mod line;
mod pair;
mod queue;
mod script;
mod serial;
mod sharing;
mod shown;
mod traces;
mod until;
mod wild;

use event::Event;
use pair::{Difference, Pair};
use script::Script;
use shown::Shown;
use std::process::ExitCode;

const SEEDS: [u64; 6] = [1, 2, 3, 4, 5, 6];
const ROUNDS: u32 = 80;
const EVENTS: u32 = 2_000;

/// What must have been compared when the seeds are the program's own.
const LEAST_CLOCKS: u64 = 10_000_000;

#[derive(Default)]
struct Totals {
    events: u64,
    clocks: u64,
    /// By number; 0 counts what was not refused.
    refusals: [u64; 11],
    shown: Shown,
}

/// The refusals that must have come.
const REFUSALS: [usize; 8] = [1, 2, 3, 4, 5, 6, 7, 10];

/// A round: events one by one, then everything that can be read, the fields, and the same events as a trace.
fn round(script: &mut Script, pair: &mut Pair, totals: &mut Totals) -> Result<(), Difference> {
    if script.random.percent(20) {
        *pair = pair.clone().counting_from(u64::MAX - u64::from(script.random.below(20_000)));
    }
    let start = pair.clone();
    let mut records = Vec::new();
    script.begin();
    for _ in 0..EVENTS {
        let event = script.next();
        let answer = pair.event(event)?;
        if let (Event::Hold { clocks, .. }, 0) = (event, answer.refusal) {
            totals.clocks += u64::from(clocks);
        }
        totals.events += 1;
        totals.refusals[usize::from(answer.refusal)] += 1;
        totals.shown.count(event, answer.value);
        records.push(event.record());
    }
    pair.readable()?;
    fields::check(&pair.library)?;
    until::check(&mut script.random, pair)?;
    let refusals = &mut totals.refusals;
    traces::check(&mut script.random, &start, pair, &records, refusals)
}

fn run(seed: u64, totals: &mut Totals) -> bool {
    let mut script = Script::new(seed);
    let mut pair = Pair::new();
    let (events, clocks) = (totals.events, totals.clocks);
    for number in 0..ROUNDS {
        if let Err(difference) = round(&mut script, &mut pair, totals) {
            let event = totals.events - events;
            println!("seed {seed}, round {number}, event {event}: they differ");
            println!("  {}", difference.what);
            println!("  library   {}", difference.library);
            println!("  reference {}", difference.reference);
            return false;
        }
    }
    println!(
        "seed {seed}: {} events, {} clocks, alike",
        totals.events - events,
        totals.clocks - clocks
    );
    true
}

fn main() -> ExitCode {
    let mut given = Vec::new();
    for word in std::env::args().skip(1) {
        match word.parse() {
            Ok(seed) => given.push(seed),
            Err(_) => {
                eprintln!("usage: host [SEED..]");
                return ExitCode::FAILURE;
            }
        }
    }
    if qsm::version() != qsm::VERSION {
        println!("the library's struct is of version {}, not {}", qsm::version(), qsm::VERSION);
        return ExitCode::FAILURE;
    }
    let seeds = if given.is_empty() { &SEEDS[..] } else { &given };
    let mut totals = Totals::default();
    if !seeds.iter().all(|&seed| run(seed, &mut totals)) {
        return ExitCode::FAILURE;
    }
    match sharing::run(seeds[0]) {
        Ok(events) => println!("two drivers: {events} events, alike"),
        Err(difference) => {
            println!("two drivers: they differ");
            println!("  {}", difference.what);
            println!("  library   {}", difference.library);
            println!("  reference {}", difference.reference);
            return ExitCode::FAILURE;
        }
    }
    let times = REFUSALS.map(|number| totals.refusals[number]);
    println!("refusals 1 to 7 and 10: {times:?} times");
    println!("flags read: {}", totals.shown);
    let all = totals.refusals[0] > 0 && times.iter().all(|&count| count > 0) && totals.shown.all();
    if given.is_empty() && !(all && totals.clocks >= LEAST_CLOCKS) {
        println!("too little: a refusal or a flag never came, or fewer than {LEAST_CLOCKS} clocks");
        return ExitCode::FAILURE;
    }
    let Totals { events, clocks, .. } = totals;
    println!("{events} events over {clocks} clocks answered alike");
    ExitCode::SUCCESS
}
