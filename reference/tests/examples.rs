//! The paper's marked examples.

mod common;
use common::*;
use reference::{play, Module};

/// A start bit with the given RT3, RT5, RT7, after enough ones.
fn start_bit(rt3: u8, rt5: u8, rt7: u8) -> Module {
    let mut module = serial(RE);
    samples(&mut module, 1, 16);
    for level in [0, 0, rt3, 0, rt5, 0, rt7] {
        samples(&mut module, level, 1);
    }
    module
}

/// The receive flags of 0x55 behind that start bit.
fn flags_behind(mut module: Module) -> u32 {
    samples(&mut module, 0, 9);
    for place in 0..8 {
        samples(&mut module, 0x55 >> place & 1, 16);
    }
    samples(&mut module, 1, 10);
    get(&mut module, SCSR) & RECEIVE_FLAGS
}

#[test]
fn k1_clean_start() {
    assert_eq!(flags_behind(start_bit(0, 0, 0)), RDRF);
}

#[test]
fn k2_noisy_start() {
    assert_eq!(flags_behind(start_bit(0, 1, 0)), RDRF | NF);
}

#[test]
fn k3_abandoned_start() {
    let module = start_bit(0, 1, 1);
    assert_eq!(peek(&module, SCSR) & RAF, 0);
    assert_ne!(peek(&start_bit(0, 1, 0), SCSR) & RAF, 0);
}

/// Plays a frame of ones and gives the sample at which RDRF rises.
fn end_of_frame(sccr1: u32) -> u32 {
    let mut module = serial(sccr1);
    samples(&mut module, 1, 16);
    (1..=200)
        .find(|&number| {
            samples(&mut module, u8::from(number > 16), 1);
            peek(&module, SCSR) & RDRF != 0
        })
        .unwrap()
}

#[test]
fn k4_k5_ends_of_frames() {
    assert_eq!(end_of_frame(RE), 154);
    assert_eq!(end_of_frame(RE | 1 << 9), 170);
}

#[test]
fn k6_idle() {
    let mut module = serial(RE);
    samples(&mut module, 1, 16);
    frame(&mut module, 0xFF, 8);
    samples(&mut module, 1, 15);
    assert_eq!(peek(&module, SCSR) & (IDLE | RAF), RAF);
    samples(&mut module, 1, 1);
    assert_eq!(peek(&module, SCSR) & (IDLE | RAF), IDLE);
}

#[test]
fn k7_plain_entry() {
    let mut module = queue(4, 0x0F00);
    put(&mut module, 0x122, 0x80);
    put(&mut module, SPCR1, SPE);
    module.hold(0, 1, 63);
    assert_eq!(peek(&module, 0x1E) & 0xF, 0);
    let edge = module.clone().hold(0, 1, 1);
    assert_eq!((edge.levels & 4, edge.mask), (0, 0x0E));
    // Entry 1 puts its highest bit on MOSI from its clock 1, entry 0 sent zeros.
    assert_eq!(module.hold(0, 1, 18).levels & 2, 0);
    assert_eq!(module.hold(0, 1, 1).levels & 2, 2);
}

#[test]
fn k8_sixteen_entries() {
    let mut module = queue(4, 0x0F00);
    put(&mut module, SPCR1, SPE);
    module.hold(0, 1, 1278);
    assert_eq!(peek(&module, 0x1E) & 0xFF, 14);
    assert_eq!(peek(&module, SPCR1) & SPE, SPE);
    module.hold(0, 1, 1);
    assert_eq!(peek(&module, 0x1E) & 0xFF, SPIF | 15);
    assert_eq!(peek(&module, SPCR1) & SPE, 0);
}

#[test]
fn k9_longest_entry() {
    // BITSE and DT, BITS 0, SPBR 255, DTL 0: the second entry's first bit comes at clock 16,353.
    let mut module = queue(255, 0x0F00);
    put(&mut module, 0x140, 0x6060);
    put(&mut module, 0x122, 0x8000);
    put(&mut module, SPCR1, SPE);
    assert_eq!(module.hold(0, 1, 16352).levels & 2, 0);
    assert_eq!(module.hold(0, 1, 1).levels & 2, 2);
}

#[test]
fn k10_queue_runs_through_15() {
    let mut module = queue(2, 0x010E);
    put(&mut module, SPCR1, SPE);
    let mut run = vec![];
    for _ in 0..4 {
        module.hold(0, 1, 32);
        run.push(peek(&module, 0x1E) & 0xF);
        module.hold(0, 1, 17);
    }
    assert_eq!(run, [14, 15, 0, 1]);
    assert_eq!(peek(&module, SPCR1) & SPE, 0);
}

#[test]
fn k11_overrun_between_the_reads() {
    let mut module = serial(RE);
    samples(&mut module, 1, 16);
    frame(&mut module, 0x31, 8);
    assert_eq!(get(&mut module, SCSR) & RECEIVE_FLAGS, RDRF);
    frame(&mut module, 0x32, 8);
    assert_eq!(get(&mut module, SCDR), 0x31);
    assert_eq!(peek(&module, SCSR) & RECEIVE_FLAGS, OR);
    // With OR still set the next frame is lost as well.
    frame(&mut module, 0x33, 8);
    assert_eq!(get(&mut module, SCSR) & RECEIVE_FLAGS, OR);
    assert_eq!(get(&mut module, SCDR), 0x31);
    frame(&mut module, 0x34, 8);
    assert_eq!(get(&mut module, SCSR) & RECEIVE_FLAGS, RDRF);
    assert_eq!(get(&mut module, SCDR), 0x34);
}

#[test]
fn k12_trace() {
    let mut out = [0xEE; 37];
    let played = play(&mut Module::new(), &[1, 3, 0x82, 0, 0x0C], &mut out);
    assert_eq!((played.read, played.written, played.stop), (5, 36, 0));
    assert_eq!(out[..18], [0x11, 0, 0, 0, 0, 0, 0, 0, 0, 0, 0, 0, 0, 0, 0, 0, 0, 0]);
    assert_eq!(out[18..36], [0x11, 0, 0, 0, 1, 0x80, 0, 0, 0, 0, 0, 0, 0, 0, 0, 0, 0, 0]);
    assert_eq!(out[36], 0xEE);
}
