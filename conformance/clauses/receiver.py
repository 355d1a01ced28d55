"""The serial receiver, sample by sample: a sample is taken every 2 clocks."""
from .builder import *


def listening(t, sccr1=RE):
    """Three ones and one more, so that a zero is RT1."""
    t.reset()
    t.serial(sccr1)
    t.samples('1111')


def shown(t):
    """Flags and word, and all fall that were seen."""
    t.drain()
    t.status()


@clause('01.R1', 'One sample every 2 x SCBR clocks; none if SCBR is 0')
def _(t):
    t.reset()
    t.serial(RE, scbr=3)
    t.hold(18)
    t.tried()
    t.hold(5, 0)
    t.status()
    t.hold(1, 0)
    t.status()
    t.reset()
    t.serial(RE, scbr=0)
    t.hold(100)
    t.hold(100, 0)
    t.status()


@clause('01.R2', 'A reset or a changed SCCR0 restarts the prescaler')
def _(t):
    t.reset()
    t.serial(RE, scbr=4)
    t.hold(24 + 5)
    t.write(SCCR1, 0)
    t.tried()
    t.write(SCCR0, 5)
    t.write(SCCR1, RE)
    t.hold(29)
    t.hold(10, 0)
    t.status()
    t.hold(1, 0)
    t.status()
    t.reset()
    t.write(SCCR1, RE)
    t.hold(31)
    t.hold(1, 0)
    t.status()


@clause('01.R3', 'It keeps still while TE and RE are clear and nothing runs')
def _(t):
    t.reset()
    t.serial(RE, scbr=4)
    t.hold(5)
    t.write(SCCR1, 0)
    t.tried()
    t.hold(6)
    t.write(SCCR1, RE)
    t.hold(3 + 16)
    t.hold(7, 0)
    t.status()
    t.hold(1, 0)
    t.status()


@clause('01.R4', 'A zero is RT1 and sets RAF after three ones')
def _(t):
    for ones in ('111', '11', '1101', '0111'):
        t.reset()
        t.serial(RE)
        if ones == '111':
            t.tried()
        t.samples(ones + '0')
        t.status()


@clause('01.R5', 'The three are taken since RE rose, inside a frame or not')
def _(t):
    t.reset()
    t.serial(RE)
    t.samples('11')
    t.write(SCCR1, 0)
    t.write(SCCR1, RE)
    t.tried()
    t.samples('10')
    t.status()
    listening(t)
    t.samples(frame(0x00)[:-6])
    shown(t)
    t.samples('0')
    t.status()


@clause('01.R6', 'RT3, RT5, RT7: two or more ones abandon the start')
def _(t):
    for places in ((3, 5), (3, 7), (5, 7), (3, 5, 7), (2, 4, 6)):
        listening(t)
        if places == (3, 5):
            t.tried()
        t.samples(changed('0' * 7, *places))
        t.status()
        t.samples('0' * 9 + frame(0x41)[16:])
        t.status()


@clause('01.R7', 'A single one is noise')
def _(t):
    for place in (2, 3, 4, 5, 6, 7):
        listening(t)
        if place == 2:
            t.tried()
        t.samples(changed(frame(0x41), place))
        shown(t)


@clause('01.R8', 'The search goes on at RT8')
def _(t):
    listening(t)
    t.tried()
    t.samples('0011111')
    t.status()
    t.samples('0')
    t.status()
    t.samples(frame(0x41)[1:])
    shown(t)


@clause('01.R9', 'RT16 is followed by RT1 of the next bit')
def _(t):
    listening(t)
    t.tried()
    t.samples(frame(0x55)[:-7])
    t.status()
    t.samples('1')
    shown(t)


@clause('01.R10', 'Each bit is the majority of RT8, RT9, RT10')
def _(t):
    for places in ((8,), (9,), (10,), (8, 9), (8, 10), (9, 10), (8, 9, 10), (7, 11), (6, 7, 11, 12)):
        listening(t)
        if places == (8,):
            t.tried()
        t.samples(changed(frame(0x5A), *(16 + 16 * 2 + place for place in places)))
        shown(t)


@clause('01.R11', 'Disagreement is noise')
def _(t):
    for bit in (1, 4, 8, 9):
        for place in (8, 9, 10):
            listening(t)
            if (bit, place) == (1, 8):
                t.tried()
            t.samples(changed(frame(0x0F), 16 * bit + place))
            t.status()


@clause('01.R12', 'Any one there in the start bit is noise, the start stands')
def _(t):
    for places in ((8,), (9,), (10,), (8, 9), (8, 9, 10)):
        listening(t)
        if places == (8,):
            t.tried()
        t.samples(changed(frame(0x00), *places))
        shown(t)


@clause('01.R13', "Sampling points don't move inside a frame")
def _(t):
    listening(t)
    t.tried()
    # A start bit that is long, and zeros after ones of less than three samples: nothing moves.
    t.samples('0' * 20 + '1' * 12 + frame(0xFF)[32:])
    shown(t)
    listening(t)
    t.samples(changed(frame(0xFF), 16 + 12, 16 + 14, 32 + 3, 32 + 5))
    shown(t)


@clause('01.R14', '8 or 9 bits, low bit first, then stop')
def _(t):
    listening(t)
    t.tried()
    t.samples(frame(0x1D))
    shown(t)
    listening(t, RE | M)
    t.samples(frame(0x11D, 9))
    shown(t)
    listening(t, RE | M)
    t.samples(frame(0x0E2, 9))
    shown(t)


@clause('01.R15', "The frame ends at the stop bit's RT10; searching resumes")
def _(t):
    listening(t)
    t.tried()
    t.samples(frame(0x41)[:-7])
    t.status()
    t.samples('1')
    t.status()
    t.data()
    t.samples('0')
    t.status()
    t.samples(frame(0x42)[1:])
    shown(t)


@clause('01.R16', 'An ended frame, not asleep, is taken')
def _(t):
    listening(t)
    t.tried()
    t.samples(frame(0x41))
    shown(t)
    listening(t, RE | RWU)
    t.samples(frame(0x41))
    shown(t)


@clause('01.R17', 'RDRF or OR set: it is lost, OR rises, nothing else changes')
def _(t):
    listening(t)
    t.samples(frame(0x41))
    t.tried()
    t.samples(changed(frame(0x42, stop=0), 40))
    t.status()
    t.read(SCDR, 1)
    t.samples('1' * 3 + frame(0x43))
    t.data()
    t.status()
    t.samples(frame(0x44))
    t.status()
    # OR alone: the status read saw RDRF, and the loss came after it.
    t.data()
    t.samples(frame(0x45))
    t.status()
    t.samples(frame(0x46))
    t.data()
    t.samples(frame(0x47))
    t.drain()
    t.samples(frame(0x48))
    t.drain()


@clause('01.R18', 'Else the word enters SCDR, RDRF rises')
def _(t):
    listening(t)
    t.tried()
    t.samples(frame(0xC3))
    t.status()
    t.data()
    t.samples(frame(0x3C))
    t.status()
    t.data()


@clause('01.R19', 'With NF and FE')
def _(t):
    listening(t)
    t.tried()
    t.samples(frame(0x41, stop=0))
    shown(t)
    t.samples('1' * 16 + changed(frame(0x41), 24 + 16))
    shown(t)
    t.samples(frame(0x41))
    shown(t)


@clause('01.R20', 'With PF: PE and wrong parity; PT=0 even')
def _(t):
    for sccr1 in (RE | PE, RE | PE | PT, RE, RE | PT):
        for word in (0x81, 0x01, 0x00, 0x80):
            listening(t, sccr1)
            if (sccr1, word) == (RE | PE, 0x81):
                t.tried()
            t.samples(frame(word))
            t.status()
    for word in (0x101, 0x100):
        listening(t, RE | PE | M)
        t.samples(frame(word, 9))
        t.status()


@clause('01.R21', 'M=0: bit 8 reads 0, the parity bit stays in place')
def _(t):
    listening(t, RE | M)
    t.samples(frame(0x1FF, 9))
    t.drain()
    t.write(SCCR1, 0)
    t.write(SCCR1, RE | PE)
    t.samples('1111')
    t.tried()
    t.samples(frame(0x81))
    shown(t)


@clause('01.R22', 'A fresh word: its read makes RDRF fall; delivered')
def _(t):
    listening(t)
    t.samples(frame(0x41))
    t.tried()
    t.status()
    t.data()
    t.status()
    t.data()
    t.status()


@clause('01.R23', "Idle count: ones, reset by a zero, with ILT=1 by a frame's end")
def _(t):
    for sccr1 in (RE, RE | ILT):
        listening(t, sccr1)
        t.samples(frame(0xFF))
        t.drain()
        if sccr1 == RE:
            t.tried()
        for ones in (15, 1, 122, 15, 1):
            t.samples('1' * ones)
            t.status()


@clause('01.R24', 'It stops at 160 or 176')
def _(t):
    for sccr1, full in ((RE, 160), (RE | M, 176)):
        listening(t, sccr1)
        t.samples(frame(0x00, 9 if sccr1 & M else 8))
        t.drain()
        if sccr1 == RE:
            t.tried()
        t.samples('1' * (full - 17))
        t.status()
        t.samples('1')
        t.drain()
        t.samples('1' * 400)
        t.status()


@clause('01.R25', 'On reaching that, RAF falls')
def _(t):
    listening(t)
    t.samples(frame(0x00))
    t.drain()
    t.tried()
    t.status()
    t.samples('1' * 143)
    t.status()
    t.samples('1')
    t.status()


@clause('01.R26', 'If asleep and WAKE=0, RWU falls')
def _(t):
    for sccr1 in (RE | RWU, RE | RWU | WAKE):
        listening(t, sccr1)
        if sccr1 == RE | RWU:
            t.tried()
        t.samples('1' * 155)
        t.read(SCCR1)
        t.samples('1')
        t.read(SCCR1)


@clause('01.R27', 'If awake and a frame has entered since, IDLE rises')
def _(t):
    listening(t)
    t.samples(frame(0x00))
    t.drain()
    t.tried()
    t.samples('1' * 144)
    t.drain()
    t.samples('0' + '1' * 160)
    t.status()
    listening(t)
    t.samples('1' * 200)
    t.status()


@clause('01.R28', 'WAKE=1: an address frame wakes and is taken')
def _(t):
    listening(t, RE | RWU | WAKE)
    t.tried()
    t.samples(frame(0x41))
    t.status()
    t.read(SCCR1)
    t.samples(frame(0x80))
    t.status()
    t.read(SCCR1)
    t.data()
    listening(t, RE | RWU | WAKE | M)
    t.samples(frame(0x0FF, 9))
    t.read(SCCR1)
    t.samples(frame(0x100, 9))
    t.read(SCCR1)
    t.drain()


@clause('01.R29', 'Asleep, no receive flag rises')
def _(t):
    listening(t, RE | RWU | WAKE | PE)
    t.tried()
    t.samples(changed(frame(0x01, stop=0), 40))
    t.status()
    t.samples('1' * 200)
    t.status()


@clause('01.R30', 'RE clear: start state, RAF 0; flags stay')
def _(t):
    listening(t)
    t.samples(frame(0x41) + frame(0x42)[:40])
    t.tried()
    t.status()
    t.write(SCCR1, 0)
    t.status()
    t.write(SCCR1, RE)
    t.samples('0' * 3 + '1' * 3 + '0')
    t.status()


@clause('02.L3.1', 'While data bits are read, after a one, a zero after three ones')
def _(t):
    listening(t)
    t.tried()
    # Ones that last into the next bit, then zeros: with the fall as RT1 the bit is a zero.
    t.samples('0' * 16 + '1' * 18 + '0' * 16 + '1' * 16 * 6 + '1' * 16)
    shown(t)
    # After a zero bit nothing moves.
    listening(t)
    t.samples('0' * 16 + '0' * 11 + '111' + '0' * 18 + '1' * 16 * 7)
    shown(t)


@clause('02.L3.2', 'At RT11 to RT16 it becomes RT1 of the next bit')
def _(t):
    for early in (5, 6, 1):
        listening(t)
        if early == 5:
            t.tried()
        t.samples('0' * 16 + '1' * (16 - early) + ('0' * 16 + '1' * 16) * 3 + '0' * 16 + '1' * 16)
        t.samples('1')
        shown(t)
        t.samples('1' * 16)
        t.status()


@clause('02.L3.3', 'At RT2 to RT7 of the bit it is in')
def _(t):
    for late in (1, 3, 6, 7):
        listening(t)
        if late == 1:
            t.tried()
        t.samples('0' * 16 + '1' * (16 + late) + ('0' * 16 + '1' * 16) * 3 + '0' * 16 + '1' * 8)
        t.status()
        t.samples('1' * 20)
        shown(t)


@clause('02.L3.4', 'At most once for the bit whose RT1 it sets')
def _(t):
    listening(t)
    t.tried()
    t.samples('0' * 16 + '1' * 18 + '0' + '111' + '0' * 12 + '1' * 16 * 6 + '1' * 16)
    shown(t)
    listening(t)
    t.samples('0' * 16 + '1' * 12 + '0' + '111' + '0' * 12 + '1' * 16 * 6 + '1' * 16)
    shown(t)


@clause('02.L3.5', 'Elsewhere nothing moves')
def _(t):
    listening(t)
    t.tried()
    # Falls at RT8, RT9 and RT10; in the last data bit toward the stop bit; in the stop bit.
    for place in (8, 9, 10):
        listening(t)
        t.samples('0' * 16 + '1' * (16 + place - 1) + '0' * (17 - place) + '1' * 16 * 7)
        shown(t)
    listening(t)
    t.samples(frame(0xFF)[:16 * 9 - 4] + '0' * 4 + '0' * 6 + '1' * 26)
    shown(t)
    listening(t)
    t.samples(frame(0xFF)[:16 * 9 + 3] + '0' * 4 + '1' * 20)
    shown(t)


@clause('02.L3.6', 'K4 and K5 keep their numbers for a line at exact rate')
def _(t):
    for sccr1, bits, word in ((RE, 8, 0x55), (RE | M, 9, 0x155)):
        listening(t, sccr1)
        if bits == 8:
            t.tried()
        t.samples(frame(word, bits)[:-7])
        t.status()
        t.samples('1')
        shown(t)
