//! The recorded inputs of `tests/vectors` and `tests/vectors-02`: each log, and each figure, is given back byte for byte.

use reference::{play, Module, ANSWER_LENGTH};
use std::fs;
use std::path::{Path, PathBuf};

/// A trace whose holds are longer is left to `recorded_logs_of_long_holds`.
const CLOCKS: u64 = 100_000_000;

/// The traces of some folders of `tests/`, in order.
fn traces(folders: &[&str]) -> Vec<PathBuf> {
    let tests = Path::new(env!("CARGO_MANIFEST_DIR")).join("../tests");
    let mut found: Vec<PathBuf> = folders
        .iter()
        .flat_map(|folder| fs::read_dir(tests.join(folder)).unwrap())
        .map(|entry| entry.unwrap().path())
        .filter(|path| path.extension().is_some_and(|e| e == "trace"))
        .collect();
    found.sort();
    assert!(!found.is_empty());
    found
}

/// The clocks of all holds, up to a record that can't be played.
fn clocks(trace: &[u8]) -> u64 {
    let (mut rest, mut sum) = (trace, 0);
    loop {
        rest = match *rest {
            [1, ref rest @ ..] => rest,
            [2, _, _, a, b, ref rest @ ..] => {
                sum += u64::from(u16::from_be_bytes([a, b]));
                rest
            }
            [3, _, _, _, ref rest @ ..] => rest,
            [4, _, _, _, _, _, _, _, ref rest @ ..] => rest,
            [5, _, _, a, b, c, d, ref rest @ ..] => {
                sum += u64::from(u32::from_be_bytes([a, b, c, d]));
                rest
            }
            _ => return sum,
        };
    }
}

/// Plays the traces whose holds are long, or the others, and prints how many there are.
fn give_back(long: bool) {
    let mut count = 0;
    for path in traces(&["vectors/random", "vectors/readings", "vectors-02/play"]) {
        let trace = fs::read(&path).unwrap();
        if (clocks(&trace) > CLOCKS) != long {
            continue;
        }
        let mut log = vec![0; trace.len() * ANSWER_LENGTH];
        let written = play(&mut Module::new(), &trace, &mut log).written;
        assert!(log[..written] == fs::read(path.with_extension("log")).unwrap(), "{}", path.display());
        count += 1;
    }
    println!("{count} recorded logs are given back byte for byte");
    assert!(count > 0);
}

#[test]
fn recorded_logs() {
    give_back(false);
}

/// A minute or more, optimised: `cargo test --release -p reference -- --ignored`.
#[test]
#[ignore]
fn recorded_logs_of_long_holds() {
    give_back(true);
}

/// After each record: the noise figure, the frames taken and those lost.
#[test]
fn recorded_figures() {
    for path in traces(&["vectors-02/figures"]) {
        let trace = fs::read(&path).unwrap();
        let (mut module, mut at, mut lines) = (Module::new(), 0, String::new());
        loop {
            let played = play(&mut module, &trace[at..], &mut [0; ANSWER_LENGTH]);
            if played.written == 0 {
                break;
            }
            at += played.read;
            lines += &format!("{} {} {}\n", module.noise(), module.taken(), module.lost());
        }
        assert!(lines.into_bytes() == fs::read(path.with_extension("out")).unwrap(), "{}", path.display());
    }
}
