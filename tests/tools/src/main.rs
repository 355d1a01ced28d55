//! The library's tools at a command line, for tests: `tests/vectors-02/run` says what each takes and prints.
//!
//! usage: tools COMMAND [ARGUMENT..]

mod compare;
mod drivers;
mod editions;
mod figures;
mod index;
mod judge;
mod lines;
mod plan;
mod plans;
mod play;

use std::io::{self, Read, Write};
use std::process::ExitCode;

/// What a command prints, or what is wrong with its arguments or its files.
pub type Printed = Result<Vec<u8>, String>;

pub fn file(name: &str) -> Result<Vec<u8>, String> {
    std::fs::read(name).map_err(|e| format!("{name}: {e}"))
}

pub fn standard_input() -> Result<Vec<u8>, String> {
    let mut bytes = Vec::new();
    io::stdin()
        .read_to_end(&mut bytes)
        .map_err(|e| format!("standard input: {e}"))?;
    Ok(bytes)
}

/// Standard input as text.
fn text() -> Result<String, String> {
    String::from_utf8(standard_input()?).map_err(|e| format!("standard input: {e}"))
}

pub fn number(word: &str) -> Result<usize, String> {
    word.parse().map_err(|_| format!("no number: {word}"))
}

const USAGE: &str = "usage: tools play [ROOM] | compare FILE_A FILE_B ROOM | judge TRACE LOG | figures | editions \
    | lines PERIOD ROOM | index MARKS | find TRACE NUMBER | drivers | check | plan | plans REPLAY COUNT SEED";

fn run(words: &[&str]) -> Printed {
    match words {
        ["play"] => play::play(None),
        ["play", room] => play::play(Some(number(room)?)),
        ["compare", first, second, room] => {
            compare::compare(&file(first)?, &file(second)?, number(room)?)
        }
        ["judge", trace, log] => judge::judge(&file(trace)?, &file(log)?),
        ["figures"] => figures::figures(),
        ["editions"] => editions::editions(),
        ["lines", period, room] => {
            let period = u32::try_from(number(period)?).unwrap_or(u32::MAX);
            lines::lines(period, number(room)?)
        }
        ["drivers"] => drivers::drivers(&text()?),
        ["index", room] => index::index(&standard_input()?, number(room)?),
        ["find", trace, n] => index::find(&file(trace)?, number(n)? as u64),
        ["check"] => plan::check(&text()?),
        ["plan"] => plan::plan(&text()?),
        ["plans", replay, count, seed] => plans::plans(replay, number(count)?, number(seed)?),
        _ => Err(USAGE.into()),
    }
}

fn main() -> ExitCode {
    let words: Vec<String> = std::env::args().skip(1).collect();
    let words: Vec<&str> = words.iter().map(String::as_str).collect();
    let printed = run(&words).and_then(|bytes| {
        io::stdout()
            .write_all(&bytes)
            .map_err(|e| format!("standard output: {e}"))
    });
    match printed {
        Ok(()) => ExitCode::SUCCESS,
        Err(message) => {
            eprintln!("tools: {message}");
            ExitCode::FAILURE
        }
    }
}
