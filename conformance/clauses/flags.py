"""Status flags: what makes them fall."""
from .builder import *


def received(t, word=0x41, sccr1=RE):
    """A word in SCDR, with nothing seen yet."""
    t.reset()
    t.serial(sccr1)
    t.samples('1' * 4 + frame(word))


@clause('01.F1', 'A read of either byte of SCSR marks every flag then set')
def _(t):
    for offset, width in ((SCSR, 1), (SCSR + 1, 1), (SCSR, 2)):
        received(t)
        if offset == SCSR and width == 1:
            t.tried()
        t.read(offset, width)
        t.data()
        t.status()


@clause('01.F3', "Receive flags set and seen fall on a read of SCDR's low byte or word")
def _(t):
    received(t)
    t.tried()
    t.data()
    t.status()
    t.read(SCDR + 1, 1)
    t.status()
    received(t)
    t.status()
    t.data()
    t.status()


@clause('01.F4', 'Its upper byte alone does not count')
def _(t):
    received(t)
    t.status()
    t.tried()
    t.read(SCDR, 1)
    t.status()
    t.data()
    t.status()


@clause('01.F5', 'TDRE and TC fall on such a write')
def _(t):
    t.reset()
    t.tried()
    t.write(SCDR, 0x55)
    t.status()
    t.write(SCDR + 1, 0x55, 1)
    t.status()
    t.reset()
    t.status()
    t.write(SCDR, 0x55)
    t.status()


@clause('01.F6', 'A flag that rises after the status read does not fall')
def _(t):
    t.reset()
    t.serial(RE)
    t.samples('1' * 4)
    t.status()
    t.samples(frame(0x41))
    t.tried()
    t.data()
    t.status()
    t.samples(frame(0x42))
    t.data()
    t.status()
    t.data()
    t.status()


@clause('01.F7', 'A long read at 0C is status then data')
def _(t):
    received(t)
    t.tried()
    t.read(SCSR, 4)
    t.status()


@clause('01.F8', "A write of SCDR's upper byte alone does nothing")
def _(t):
    t.reset()
    t.serial(TE | M)
    t.hold(2 * 176 + 4)
    t.status()
    t.tried()
    t.write(SCDR, 0x01, 1)
    t.status()
    t.write(SCDR + 1, 0x00, 1)
    t.status()
    for _ in range(12):
        t.hold(32)


@clause('01.F9', 'A write of SCSR does nothing')
def _(t):
    received(t)
    t.status()
    t.tried()
    t.write(SCSR, 0x0000)
    t.status()
    t.write(SCSR, 0xFFFF)
    t.status()


def ended(t, more=0):
    """SPIF set by an entry that ended the queue."""
    t.reset()
    t.queue(spcr2=0)
    t.hold(32)


@clause('01.F10', 'SPIF, MODF, HALTA: seen by a read touching 1F')
def _(t):
    ended(t)
    t.tried()
    t.read(SPCR3, 1)
    t.write(SPSR, 0, 1)
    t.read(SPCR3)
    t.write(SPSR, 0, 1)
    t.read(SPSR, 1)
    ended(t)
    t.read(SPCR2, 4)
    t.write(SPSR, 0, 1)
    t.read(SPSR, 1)


@clause('01.F11', 'They fall when seen and zero is written')
def _(t):
    ended(t)
    t.tried()
    t.write(SPSR, 0, 1)
    t.read(SPSR, 1)
    t.write(SPSR, 0x80, 1)
    t.read(SPSR, 1)
    t.write(SPCR3, 0, 1)
    t.read(SPSR, 1)
    t.write(SPSR, 0x7F, 1)
    t.read(SPSR, 1)


@clause('01.F12', "CPTQP can't be written")
def _(t):
    t.reset()
    t.queue(spcr2=0x0505)
    t.hold(32)
    t.tried()
    t.write(SPSR, 0x0F, 1)
    t.read(SPSR, 1)
    t.write(SPSR, 0x00, 1)
    t.read(SPSR, 1)


@clause('01.F13', 'Reset restores every value and forgets what was seen')
def _(t):
    t.reset()
    t.status()
    t.write(QSMCR, 0x000F)
    t.write(SCCR0, 0x0001)
    t.write(TRANSMIT, 0xFFFF)
    t.write(SPCR2, 0x0F0F)
    t.write(PQSPAR, 0x7BFF)
    t.hold(5)
    t.tried()
    t.reset()
    t.write(SCDR, 0x55)
    t.status()
    for offset in (QSMCR, QILR, SCCR0, SCCR1, 0x14, PQSPAR, SPCR0, SPCR1, SPCR2, SPCR3, TRANSMIT):
        t.read(offset)


unseen('01.F2', 'A set of status flags with named members', 'it is a form of the code')
