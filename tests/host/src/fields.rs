//! The struct's fields against what reads give: the declared layout is the library's.

use crate::pair::{same, Difference};
use qsm::Module;

fn read(module: &Module, width: u8, offset: u16) -> u32 {
    let mut copy = *module;
    copy.read(true, width, offset).value
}

/// Each field that a register shows has the register's value.
pub fn check(m: &Module) -> Result<(), Difference> {
    let flag = |bit: bool, place: u32| u32::from(bit) << place;
    let rwu = flag(m.sci.receiver.asleep, 1);
    let flags = m.qspi.spsr.flags;
    let spsr = flag(flags.spif, 7) | flag(flags.modf, 6) | flag(flags.halta, 5);
    let mut fields = vec![
        ("qsmcr", 2, 0x00, m.qsmcr.into()),
        ("qilr", 1, 0x04, m.qilr.into()),
        ("qivr", 1, 0x05, m.qivr.into()),
        ("sccr0", 2, 0x08, m.sci.sccr0.into()),
        ("sccr1", 2, 0x0A, u32::from(m.sci.sccr1) | rwu),
        ("status", 2, 0x0C, m.sci.status.flags.bits.into()),
        ("scdr", 2, 0x0E, m.sci.receiver.scdr.into()),
        ("pqspar", 1, 0x16, m.pqspar.into()),
        ("ddrqs", 1, 0x17, m.ddrqs.into()),
        ("spcr0", 2, 0x18, m.qspi.registers.spcr0.into()),
        ("spcr1", 2, 0x1A, m.qspi.registers.spcr1.into()),
        ("spcr2", 2, 0x1C, m.qspi.registers.spcr2.into()),
        ("spcr3", 1, 0x1E, m.qspi.registers.spcr3.into()),
        ("spsr", 1, 0x1F, spsr | u32::from(m.qspi.spsr.cptqp)),
    ];
    for (i, at) in (0..16).enumerate() {
        fields.push(("receive", 2, 0x100 + 2 * at, m.qspi.ram.receive[i].into()));
        fields.push(("transmit", 2, 0x120 + 2 * at, m.qspi.ram.transmit[i].into()));
        fields.push(("commands", 1, 0x140 + at, m.qspi.ram.commands[i].into()));
    }
    for (name, width, offset, value) in fields {
        same(
            || format!("field {name} and a read at {offset:X}"),
            value,
            read(m, width, offset),
        )?;
    }
    // These two show on pins only.
    let mut copy = *m;
    copy.write(true, 1, 0x15, 0x5A);
    copy.hold(0xC3, true, 0);
    same(|| "field clock".into(), copy.clock, copy.read(true, 1, 0).clock)?;
    same(|| "field portqs".into(), copy.portqs, 0x5A)?;
    same(|| "field inputs".into(), copy.inputs, 0xC3)
}
