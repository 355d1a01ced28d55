//! Traces, through the function and through the program.

use reference::{play, Module};
use std::io::Write;
use std::process::{Command, Output, Stdio};

const READ: [u8; 4] = [3, 0x82, 0, 0x0C];

#[test]
fn stops_in_their_order() {
    let stop = |trace: &[u8], room: usize| {
        let mut out = vec![0xEE; room];
        let played = play(&mut Module::new(), trace, &mut out);
        assert!(out[played.written..].iter().all(|&byte| byte == 0xEE));
        (played.read, played.written, played.stop)
    };
    assert_eq!(stop(&[1, 0, 1], 54), (1, 18, 5));
    assert_eq!(stop(&[1, 9], 18), (1, 18, 5));
    assert_eq!(stop(&[1, 3, 0x82], 18), (1, 18, 6));
    assert_eq!(stop(&[1, 1], 35), (1, 18, 7));
    assert_eq!(stop(&[], 0), (0, 0, 0));
}

/// 10 comes after 7, and reaching 2^64 - 1 is let.
#[test]
fn clocks_end() {
    let stop = |left: u64, trace: &[u8], room: usize| {
        let mut module = Module::new().counting_from(u64::MAX - left);
        let before = module.clone();
        let played = play(&mut module, trace, &mut vec![0; room]);
        (played.read, played.stop, module == before)
    };
    assert_eq!(stop(7, &[2, 0, 1, 0, 8], 18), (0, 10, true));
    assert_eq!(stop(7, &[2, 0, 1, 0, 8], 17), (0, 7, true));
    assert_eq!(stop(8, &[2, 0, 1, 0, 8, 2, 0, 0, 0, 0], 36), (10, 0, false));
    assert_eq!(stop(0, &[5, 0, 1, 0, 0, 0, 1, 1], 36), (0, 10, true));
    assert_eq!(stop(0, &[1, 2, 0, 1, 0, 8], 36), (6, 0, false));
}

fn run(trace: &[u8]) -> Output {
    let mut child = Command::new(env!("CARGO_BIN_EXE_reference_replay"))
        .stdin(Stdio::piped())
        .stdout(Stdio::piped())
        .stderr(Stdio::piped())
        .spawn()
        .unwrap();
    let mut stdin = child.stdin.take().unwrap();
    std::thread::scope(|scope| {
        scope.spawn(move || stdin.write_all(trace).unwrap());
        child.wait_with_output().unwrap()
    })
}

/// Longer than the program's buffer, so records lie across its pieces.
#[test]
fn long_trace_is_played_in_pieces() {
    let count = 50_000;
    let mut trace = [1].to_vec();
    trace.extend(READ.repeat(count));
    let mut log = vec![0; 18 * (count + 1)];
    let played = play(&mut Module::new(), &trace, &mut log);
    assert_eq!(played.written, log.len());
    let output = run(&trace);
    assert!(output.status.success() && output.stderr.is_empty());
    assert!(output.stdout == log);
}

#[test]
fn stop_is_told() {
    let mut trace = READ.repeat(3);
    trace.push(0xFF);
    let output = run(&trace);
    assert_eq!(output.stdout.len(), 54);
    let told = String::from_utf8(output.stderr).unwrap();
    assert_eq!(told, "refusal 5 at record 3, byte 12\n");
}
