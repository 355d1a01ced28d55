//! Short names for what the tests do to a module.
#![allow(dead_code)]

use reference::Module;

pub const SCCR0: u16 = 0x08;
pub const SCCR1: u16 = 0x0A;
pub const SCSR: u16 = 0x0C;
pub const SCDR: u16 = 0x0E;
pub const SPCR0: u16 = 0x18;
pub const SPCR1: u16 = 0x1A;
pub const SPCR2: u16 = 0x1C;
pub const SPSR: u16 = 0x1F;

pub const TE: u32 = 1 << 3;
pub const RE: u32 = 1 << 2;

pub const TDRE: u32 = 1 << 8;
pub const TC: u32 = 1 << 7;
pub const RDRF: u32 = 1 << 6;
pub const RAF: u32 = 1 << 5;
pub const IDLE: u32 = 1 << 4;
pub const OR: u32 = 1 << 3;
pub const NF: u32 = 1 << 2;
pub const FE: u32 = 1 << 1;
pub const PF: u32 = 1 << 0;
pub const RECEIVE_FLAGS: u32 = RDRF | IDLE | OR | NF | FE | PF;

pub const MSTR: u32 = 1 << 15;
pub const SPE: u32 = 1 << 15;
pub const SPIF: u32 = 1 << 7;

/// A supervisor's word write that is let through.
pub fn put(module: &mut Module, offset: u16, value: u32) {
    assert_eq!(module.write(true, 2, offset, value).refusal, 0);
}

/// A supervisor's word read.
pub fn get(module: &mut Module, offset: u16) -> u32 {
    let answer = module.read(true, 2, offset);
    assert_eq!(answer.refusal, 0);
    answer.value
}

/// A word as a clone reads it, so that nothing is marked as seen.
pub fn peek(module: &Module, offset: u16) -> u32 {
    get(&mut module.clone(), offset)
}

/// Fastest line, SCBR 1: a sample every two clocks.
pub fn serial(sccr1: u32) -> Module {
    let mut module = Module::new();
    put(&mut module, SCCR0, 1);
    put(&mut module, SCCR1, sccr1);
    module
}

/// Puts `count` equal samples on the line.
pub fn samples(module: &mut Module, level: u8, count: u32) {
    module.hold(0, level, 2 * count);
}

/// Whole bits on the line: start, `bits` of `word` low bit first, stop.
pub fn frame(module: &mut Module, word: u32, bits: u32) {
    samples(module, 0, 16);
    for place in 0..bits {
        samples(module, (word >> place & 1) as u8, 16);
    }
    samples(module, 1, 16);
}

/// A master with PCS0 and MOSI as outputs and all entries plain.
pub fn queue(spcr0: u32, spcr2: u32) -> Module {
    let mut module = Module::new();
    put(&mut module, 0x16, 0x0B_0E);
    put(&mut module, SPCR0, MSTR | spcr0);
    put(&mut module, SPCR2, spcr2);
    module
}
