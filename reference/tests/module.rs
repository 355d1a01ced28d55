//! Refusals, privilege, and the two halves at work.

mod common;
use common::*;
use reference::Module;

fn refused(module: &Module, width: u8, offset: u16, value: u32) -> u8 {
    let mut after = module.clone();
    let refusal = after.write(true, width, offset, value).refusal;
    assert!(refusal == 0 || after == *module);
    refusal
}

#[test]
fn refusals_by_form_and_map() {
    let module = Module::new();
    assert_eq!(refused(&module, 3, 0x08, 0), 1);
    assert_eq!(refused(&module, 2, 0x09, 0), 1);
    assert_eq!(refused(&module, 1, 0x15, 0x100), 1);
    assert_eq!(refused(&module, 4, 0x0E, 0), 2);
    assert_eq!(refused(&module, 4, 0xFFFE, 0), 2);
    assert_eq!(refused(&module, 1, 0x150, 0), 2);
}

#[test]
fn refusals_of_settings() {
    let mut module = Module::new();
    assert_eq!(refused(&module, 2, 0x00, 0x8000), 3);
    assert_eq!(refused(&module, 2, SPCR0, 7 << 10), 3);
    assert_eq!(refused(&module, 2, SPCR1, SPE), 3);
    assert_eq!(refused(&module, 4, SPCR0, 0x8104_8404), 0);
    put(&mut module, SPCR0, 0x8104);
    put(&mut module, SPCR1, SPE | 0x0404);
    assert_eq!(refused(&module, 2, SPCR0, 0x0104), 4);
    assert_eq!(refused(&module, 4, SPCR0, 0x0104_8404), 3);
    assert_eq!(refused(&module, 4, SPCR0, 0x8105_8404), 4);
    assert_eq!(refused(&module, 4, SPCR0, 0x8104_0404), 0);
}

#[test]
fn user_access() {
    let mut module = Module::new();
    let before = module.clone();
    assert_eq!(module.read(false, 2, SCCR0).value, 0);
    assert_eq!(module.write(false, 2, 0x00, 0x8000).refusal, 0);
    assert_eq!(module, before);
    put(&mut module, 0x00, 0);
    assert_eq!(module.read(false, 2, SCCR0).value, 4);
    assert_eq!(module.read(false, 2, 0x04).value, 0);
}

#[test]
fn seen_flags_fall_alone() {
    let mut module = serial(RE);
    samples(&mut module, 1, 16);
    frame(&mut module, 0x58, 8);
    assert_eq!(get(&mut module, SCDR), 0x58);
    assert_eq!(get(&mut module, SCSR) & RECEIVE_FLAGS, RDRF);
    assert_eq!(get(&mut module, SCDR), 0x58);
    assert_eq!(get(&mut module, SCSR) & RECEIVE_FLAGS, 0);
}

/// Every word sent is received as it was, with no error flag, for every setting of M, PE and PT.
#[test]
fn transmitter_to_receiver() {
    for settings in 0..8 {
        let sccr1 = settings << 9;
        let top = if sccr1 & 1 << 9 != 0 { 1 << 8 } else { 1 << 7 };
        let data_mask = if sccr1 & 1 << 10 != 0 {
            top - 1
        } else {
            2 * top - 1
        };
        let mut sender = serial(TE | sccr1);
        let mut receiver = serial(RE | sccr1);
        for word in [0, 0x55, 0x7F, 0x80, 0x131, 0x1FF] {
            get(&mut sender, SCSR);
            put(&mut sender, SCDR, word);
            for _ in 0..400 {
                let txd = sender.hold(0, 1, 2).levels & 0x80;
                receiver.hold(0, txd, 2);
            }
            assert_eq!(peek(&sender, SCSR), TDRE | TC);
            assert_eq!(get(&mut receiver, SCSR) & (RECEIVE_FLAGS & !IDLE), RDRF);
            assert_eq!(get(&mut receiver, SCDR) & data_mask, word & data_mask);
        }
    }
}

#[test]
fn queue_receives_miso_and_wraps() {
    let mut module = queue(2, 0x4300);
    put(&mut module, SPCR1, SPE);
    module.hold(1, 1, 4 * 49);
    for entry in 0..4 {
        assert_eq!(peek(&module, 0x100 + 2 * entry), 0xFF);
    }
    assert_eq!(module.read(true, 1, SPSR).value, SPIF | 3);
    module.write(true, 1, SPSR, 0);
    module.hold(0, 1, 32);
    assert_eq!(module.read(true, 1, SPSR).value, 0);
    assert_eq!(peek(&module, 0x100), 0);
}

#[test]
fn mode_fault_stops_the_queue() {
    let mut module = queue(2, 0x0F00);
    put(&mut module, 0x16, 0x0B06);
    put(&mut module, SPCR1, SPE);
    module.hold(0x08, 1, 31);
    module.hold(0x00, 1, 1);
    assert_eq!(peek(&module, 0x1E), 1 << 6);
    assert_eq!(peek(&module, SPCR1), 0);
    assert_eq!(peek(&module, 0x100), 0);
}
