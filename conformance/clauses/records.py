"""Traces and logs: records, answers, long holds, the count of clocks."""
from .builder import *


@clause('01.TR1', 'Kind byte, then a body of fixed length')
def _(t):
    t.tried()
    t.reset()
    t.hold(3)
    t.read(SCSR)
    t.write(SCCR0, 5)
    t.hold(0x1_0000)
    t.read(SCCR0)


@clause('01.TR2', '01 reset')
def _(t):
    t.reset()
    t.write(SCCR0, 5)
    t.hold(7)
    t.tried()
    t.reset()
    t.read(SCCR0)


@clause('01.TR3', '02 hold: pins, RXD (nonzero is one), clocks')
def _(t):
    t.reset()
    t.tried()
    t.raw(0x02, 0x5A, 0x00, 0x01, 0x02)
    t.read(PORTQS, 1)
    for rxd in (0x01, 0x02, 0x80, 0xFF):
        t.reset()
        t.serial(RE)
        t.raw(0x02, 0xFF, rxd, 0x00, 0x06)
        t.raw(0x02, 0xFF, 0x00, 0x00, 0x02)
        t.status()


@clause('01.TR4', '03 read: width with bit 7 for supervisor, offset')
def _(t):
    t.reset()
    t.tried()
    t.raw(0x03, 0x82, 0x00, 0x18)
    t.raw(0x03, 0x02, 0x00, 0x18)
    t.raw(0x03, 0x84, 0x00, 0x18)
    t.raw(0x03, 0x82, 0x18, 0x00)
    t.raw(0x03, 0x82, 0x01, 0x20)


@clause('01.TR5', '04 write: width likewise, offset, value')
def _(t):
    t.reset()
    t.tried()
    t.raw(0x04, 0x84, 0x01, 0x20, 0x12, 0x34, 0x56, 0x78)
    t.read(TRANSMIT, 4)
    t.raw(0x04, 0x02, 0x01, 0x20, 0x00, 0x00, 0x00, 0x00)
    t.read(TRANSMIT, 4)
    t.raw(0x04, 0x82, 0x20, 0x01, 0x00, 0x00, 0x00, 0x00)


@clause('01.TR6', 'Each gives 10 bytes (02, L9: 18)')
def _(t):
    t.tried()
    t.reset()
    t.hold(1)
    t.read(SCCR0)
    t.write(SCCR0, 1)
    t.read(0x02)


@clause('01.TR7', '10 (02, L9: 11), refusal, value, levels, mask, level, vector')
def _(t):
    t.reset()
    t.write(QILR, 0x2A51)
    t.write(DDRQS, 0xF0, 1)
    t.write(PORTQS, 0xA5, 1)
    t.write(SCCR1, TIE)
    t.tried()
    t.read(QILR)
    t.read(SCCR0, 3)
    t.hold(0x0102)


@clause('01.TR8', 'Value 0 unless a read')
def _(t):
    t.reset()
    t.tried()
    t.write(TRANSMIT, 0x1234)
    t.hold(5)
    t.read(TRANSMIT)
    t.reset()


@clause('01.TR9', 'Undriven levels are 0')
def _(t):
    t.reset()
    t.write(PORTQS, 0xFF, 1)
    t.tried()
    t.hold(1, pins=0xFF)
    t.write(DDRQS, 0x0F, 1)
    t.hold(1, pins=0xFF)


@clause('01.TR10', 'Fields are big-endian')
def _(t):
    t.reset()
    t.write(TRANSMIT, 0x1234_5678, 4)
    t.tried()
    t.read(TRANSMIT, 4)
    t.raw(0x02, 0x00, 0x01, 0x12, 0x34)


@clause('02.L5.1', 'Kind 05: pins, RXD, clocks as 4 bytes, up to 4,294,967,295')
def _(t):
    t.reset()
    t.tried()
    t.raw(0x05, 0x5A, 0x01, 0x01, 0x02, 0x03, 0x04)
    t.read(PORTQS, 1)
    t.raw(0x05, 0xA5, 0x00, 0x00, 0x00, 0x00, 0x00)
    t.read(PORTQS, 1)
    for rxd in (0x00, 0x01, 0x02, 0x80):
        t.reset()
        t.serial(RE)
        t.raw(0x05, 0xFF, rxd, 0x00, 0x00, 0x00, 0x06)
        t.raw(0x05, 0xFF, 0x00, 0x00, 0x00, 0x00, 0x02)
        t.status()


@clause('02.L5.6', 'A hold split into two of the same total leaves the same module')
def _(t):
    for parts in ((70000,), (35000, 35000), (1, 69999)):
        t.reset()
        t.write(SCCR0, 100)
        t.write(SCCR1, TE | RE)
        if len(parts) == 1:
            t.tried()
        for clocks in parts:
            t.hold(clocks)
        t.status()


@clause('02.L9.1', 'The state gains the number of clocks since reset')
def _(t):
    t.reset()
    t.tried()
    t.hold(5)
    t.hold(0)
    t.hold(0x1_0000)
    t.read(SCSR)
    t.reset()
    t.hold(1)


@clause('02.L9.2', 'Answers are kind 11: the nine body bytes of 10, then the count as 8 bytes')
def _(t):
    t.reset()
    t.tried()
    t.read(SCSR)
    t.hold(0x0102_0304)
    t.write(SCCR0, 5)


unseen('01.TR11', 'Answers go into what is left of the lent output', 'it is memory of a caller')
