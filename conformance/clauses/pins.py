"""Pins, the order within a clock, and interrupt requests."""
from .builder import *


@clause('01.P1', 'Pins 0 to 7: MISO, MOSI, SCK, PCS0 to 3, TXD')
def _(t):
    t.reset()
    t.write(PORTQS, 0xFF, 1)
    t.tried()
    for pin in range(8):
        t.write(DDRQS, 1 << pin, 1)
    t.write(DDRQS, 0, 1)
    t.entry(0, 0xFF, 0x05)
    t.queue()
    t.hold(2)
    t.write(SCCR1, TE)


@clause('01.P2', 'SPE clear: DDRQS and PORTQS rule pins 0 to 6')
def _(t):
    t.reset()
    t.tried()
    t.write(PQSPAR, 0x7B7F)
    for value in (0x7F, 0x55, 0x2A, 0x00):
        t.write(PORTQS, value, 1)
        t.hold(1, pins=0x00)
    t.write(DDRQS, 0x55, 1)
    t.write(PORTQS, 0xFF, 1)


@clause('01.P3', "SPE set: SCK and the assigned MOSI and PCS outputs are the queue's")
def _(t):
    for pins in (0x7B7E, 0x0000, 0x007E, 0x7B00, 0x2A6A, 0x5356):
        t.reset()
        t.write(PORTQS, 0x00, 1)
        t.entry(0, 0xFF, 0x0F)
        t.queue(pins=pins)
        if pins == 0x7B7E:
            t.tried()
        t.each(3)


@clause('01.P4', "An assigned MISO isn't driven; the rest stay as before")
def _(t):
    for pins in (0x01FF, 0x00FF, 0x7BFF):
        t.reset()
        t.write(PORTQS, 0xFF, 1)
        if pins == 0x01FF:
            t.tried()
        t.queue(pins=pins)
        t.each(2)


@clause('01.P5', 'TXD is driven, resting at one, while TE is set or something runs')
def _(t):
    t.reset()
    t.tried()
    t.serial(TE)
    t.hold(2)
    t.write(SCCR1, 0)
    t.hold(318)
    t.hold(2)
    t.hold(2)
    t.write(SCCR1, TE)
    t.hold(0)


@clause('01.P6', 'Else DDRQS and PORTQS rule pin 7')
def _(t):
    t.reset()
    t.tried()
    t.write(DDRQS, 0x80, 1)
    t.write(PORTQS, 0x80, 1)
    t.write(PORTQS, 0x00, 1)
    t.write(SCCR1, TE)
    t.write(SCCR1, 0)
    t.write(DDRQS, 0x00, 1)


@clause('01.P7', 'PORTQS reads driven levels, else the last input')
def _(t):
    t.reset()
    t.tried()
    t.write(DDRQS, 0x0F, 1)
    t.write(PORTQS, 0x35, 1)
    t.hold(1, pins=0xCA)
    t.read(PORTQS, 1)
    t.hold(0, pins=0x3A)
    t.read(PORTQS, 1)
    t.write(DDRQS, 0x00, 1)
    t.read(PORTQS, 1)


@clause('01.P8', 'The last input is 0 from a reset to a hold')
def _(t):
    t.reset()
    t.hold(1, pins=0xFF)
    t.tried()
    t.read(PORTQS, 1)
    t.reset()
    t.read(PORTQS, 1)
    t.hold(0, pins=0xA5)
    t.read(PORTQS, 1)


@clause('01.P9', 'Each clock: pins, mode fault, queue')
def _(t):
    t.reset()
    t.write(RECEIVE, 0x1234)
    t.queue(pins=0x7B76)
    t.hold(31)
    t.tried()
    t.hold(1, pins=0x00)
    t.read(SPSR, 1)
    t.read(RECEIVE)
    t.reset()
    t.queue()
    t.hold(31, pins=0x08)
    t.hold(1, pins=0x09)
    t.read(RECEIVE)


@clause('01.P10', 'Then on a sample transmitter before receiver')
def _(t):
    t.reset()
    t.serial(TE | RE)
    t.hold(322)
    t.send(0x00)
    t.tried()
    t.hold(2)
    t.status()
    t.hold(2, rxd=0)
    t.status()


@clause('01.P11', 'SCI asks')
def _(t):
    t.reset()
    t.write(QILR, 0x05, 1)
    t.tried()
    for enable in (TIE, TCIE, RIE, ILIE, 0):
        t.write(SCCR1, enable)
    t.serial(RE | RIE)
    t.samples('1111' + frame(0x00))
    t.samples('1' * 144)
    for enable in (ILIE, RIE, 0):
        t.write(SCCR1, RE | enable)
    t.drain()
    t.samples(frame(0x41) + frame(0x42))
    t.status()
    t.write(SCCR1, RE | RIE)
    t.data()
    t.drain()


@clause('01.P12', 'QSPI asks')
def _(t):
    t.reset()
    t.write(QILR, 0x28, 1)
    t.queue(spcr2=SPIFIE)
    t.tried()
    t.hold(31)
    t.hold(1)
    t.write(SPCR2, 0)
    t.read(SPSR, 1)
    t.write(SPSR, 0, 1)
    t.queue(spcr2=0x0300)
    t.write(SPCR3, HMIE | HALT, 1)
    t.hold(49)
    t.write(SPCR3, HALT, 1)
    t.write(SPCR3, HMIE, 1)
    t.reset()
    t.write(QILR, 0x28, 1)
    t.queue(pins=0x7B76)
    t.write(SPCR3, HMIE, 1)
    t.hold(1, pins=0)


def both(t):
    """Both halves ask: TC and SPIF."""
    t.reset()
    t.write(QIVR, 0x50, 1)
    t.write(SCCR1, TCIE)
    t.queue(spcr2=SPIFIE)
    t.hold(32)


@clause('01.P13', 'Level: the higher of those asking, QSPI on a tie')
def _(t):
    both(t)
    t.tried()
    for qspi, sci in ((1, 2), (2, 1), (3, 3), (7, 0), (0, 7)):
        t.write(QILR, qspi << 3 | sci, 1)
    t.write(SCCR1, 0)
    t.write(QILR, 2 << 3 | 5, 1)


@clause('01.P14', 'Vector: QIVR, bit 0 one for QSPI, zero for SCI')
def _(t):
    both(t)
    t.tried()
    for vector in (0x50, 0x51, 0xFE, 0xFF, 0x00):
        t.write(QIVR, vector, 1)
        t.write(QILR, 0x0A, 1)
        t.write(QILR, 0x11, 1)


@clause('01.P15', 'Level 0 gives vector 0')
def _(t):
    both(t)
    t.tried()
    t.write(QILR, 0x09, 1)
    t.write(QILR, 0x00, 1)
