"""The marked examples of the rules."""
from .builder import *


def start(number, words, places):
    @clause(number, words)
    def _(t):
        t.reset()
        t.serial(RE)
        t.samples('1111')
        t.tried()
        t.samples(changed(frame(0x41), *places))
        t.drain()
        t.status()


start('01.K1', 'K1: samples 000 accept clean', ())
start('01.K2', 'K2: 010 accept noisy', (5,))
start('01.K3', 'K3: 011 abandon', (5, 7))


def ends(number, words, sccr1, bits):
    @clause(number, words)
    def _(t):
        t.reset()
        t.serial(sccr1)
        t.samples('111')
        t.tried()
        t.samples(frame(0x55, bits)[:-7])
        t.status()
        t.samples('1')
        t.status()


ends('01.K4', 'K4: a frame ends at sample 154 (M=0)', RE, 8)
ends('01.K5', 'K5: at sample 170 (M=1)', RE | M, 9)


@clause('01.K6', 'K6: idle at 160 ones, not at 159')
def _(t):
    t.reset()
    t.serial(RE)
    t.samples('111' + frame(0xFF))
    t.drain()
    t.tried()
    t.samples('1' * 15)
    t.status()
    t.samples('1')
    t.status()


@clause('01.K7', 'K7: edge 16 at clock 64, entry 81')
def _(t):
    t.reset()
    t.entry(1, 0xFF)
    t.queue(spcr0=MSTR | 4, spcr2=0x0100)
    t.tried()
    t.hold(63)
    t.read(SPSR, 1)
    t.hold(1)
    t.read(SPSR, 1)
    t.hold(17)
    t.hold(1)


@clause('01.K8', 'K8: 16 entries end at clock 1,279')
def _(t):
    t.reset()
    t.queue(spcr0=MSTR | 4, spcr2=0x0F00)
    t.tried()
    t.hold(1278)
    t.read(SPSR, 1)
    t.hold(1)
    t.read(SPSR, 1)


@clause('01.K9', 'K9: longest entry 16,352')
def _(t):
    t.reset()
    t.entry(0, 0, BITSE | DT), t.entry(1, 0xFFFF, BITSE | 0x0F)
    t.queue(spcr0=MSTR | 0xFF, spcr2=0x0100, spcr1=0x0000)
    t.tried()
    t.hold(16352)
    t.hold(1)


@clause('01.K10', 'K10: NEWQP 14, ENDQP 1 runs 14, 15, 0, 1')
def _(t):
    t.reset()
    t.queue(spcr0=MSTR | 4, spcr2=0x010E)
    t.tried()
    for _ in range(5):
        t.hold(81)
        t.read(SPSR, 1)


@clause('01.K11', 'K11: overrun between status and data read leaves OR set')
def _(t):
    t.reset()
    t.serial(RE)
    t.samples('111' + frame(0x41))
    t.status()
    t.samples(frame(0x42))
    t.tried()
    t.data()
    t.status()
    t.samples(frame(0x43))
    t.status()


@clause('01.K12', 'K12: the trace of the section Trace')
def _(t):
    t.tried()
    t.reset()
    t.read(SCSR)
