"""The serial transmitter."""
from .builder import *

FRAME, LONG = 320, 352  # clocks of a frame or preamble at 2 clocks a sample, with M clear and set


def sender(t, sccr1=TE):
    """The preamble is out, and nothing waits."""
    t.reset()
    t.serial(sccr1)
    t.hold((LONG if sccr1 & M else FRAME) + 2)


def bits(t, count):
    """So many bits, each looked at in two places."""
    for _ in range(2 * count):
        t.hold(16)


@clause('01.T1', 'A bit lasts 16 samples')
def _(t):
    sender(t)
    t.send(0x55)
    t.hold(2)
    t.tried()
    t.hold(30)
    t.hold(2)
    for _ in range(8):
        t.hold(30)
        t.hold(2)


@clause('01.T2', 'A write to SCDR loads the data register, a low byte keeps bit 8')
def _(t):
    sender(t, TE | M)
    t.send(0x1A5)
    t.hold(4)
    t.tried()
    t.status()
    t.write(SCDR + 1, 0x3C, 1)
    bits(t, 24)


@clause('01.T3', 'Sent only once TDRE has fallen')
def _(t):
    sender(t)
    t.tried()
    t.write(SCDR, 0x00)
    bits(t, 4)
    t.status()
    t.write(SCDR, 0x0F)
    bits(t, 12)


@clause('01.T4', 'Shifter free, TE set, TDRE clear: the frame starts, TDRE rises')
def _(t):
    sender(t)
    t.send(0x00)
    t.tried()
    t.status()
    t.hold(1)
    t.status()
    t.hold(1)
    t.status()


@clause('01.T5', 'A frame or preamble ends with TDRE set: TC rises')
def _(t):
    t.reset()
    t.send(0xFF)
    t.serial(TE)
    t.status()
    t.tried()
    t.hold(FRAME)
    t.status()
    t.hold(2)
    t.status()
    t.hold(FRAME - 2)
    t.status()
    t.hold(2)
    t.status()


@clause('01.T6', 'It ends at s + 160 or s + 176, the next may begin there')
def _(t):
    for sccr1, long in ((TE, FRAME), (TE | M, LONG)):
        sender(t, sccr1)
        t.send(0x00)
        t.hold(2)
        t.send(0x00)
        if sccr1 == TE:
            t.tried()
        t.hold(long - 2)
        t.status()
        t.hold(2)
        t.status()
        t.hold(long - 2)
        t.status()
        t.hold(2)
        t.status()


@clause('01.T7', 'TE rising queues 10 or 11 ones')
def _(t):
    for sccr1, long in ((TE, FRAME), (TE | M, LONG)):
        t.reset()
        t.send(0x00)
        if sccr1 == TE:
            t.tried()
        t.serial(sccr1)
        t.hold(long)
        t.hold(2)
        t.status()


@clause('01.T8', 'They go before data')
def _(t):
    t.reset()
    t.send(0x00)
    t.serial(TE)
    t.tried()
    t.hold(2)
    for _ in range(22):
        t.hold(32)


@clause('01.T9', 'TE falling lets what runs finish')
def _(t):
    sender(t)
    t.send(0x00)
    t.hold(40)
    t.tried()
    t.write(SCCR1, 0)
    for _ in range(12):
        t.hold(32)
    t.status()


@clause('01.T10', 'TE falling forgets a queued preamble')
def _(t):
    sender(t)
    t.send(0x00)
    t.hold(40)
    t.write(SCCR1, 0)
    t.write(SCCR1, TE)
    t.write(SCCR1, 0)
    t.tried()
    for _ in range(12):
        t.hold(32)
    t.read(SCCR0)


@clause('01.T11', 'PE replaces the top data bit')
def _(t):
    for sccr1, word in ((TE | PE, 0x07), (TE | PE, 0x83), (TE | PE | PT, 0x07), (TE | PE | M, 0x101), (TE | PE | PT | M, 0x0FF)):
        sender(t, sccr1)
        if (sccr1, word) == (TE | PE, 0x07):
            t.tried()
        t.send(word)
        t.hold(2)
        bits(t, 11)
