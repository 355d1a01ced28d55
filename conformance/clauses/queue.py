"""The queue, clock by clock. Plain entries have eight bits, SPBR of 2: edge 16 at clock 32, 49 clocks in all."""
from .builder import *

ENTRY = 49


@clause('01.Q1', 'SPE rising loads the pointer from NEWQP')
def _(t):
    t.reset()
    t.entry(0, 0x00), t.entry(7, 0xFF)
    t.tried()
    t.queue(spcr2=0x0F07)
    t.hold(32)
    t.read(SPSR, 1)


@clause('01.Q2', 'The next clock is clock 1 of the first entry')
def _(t):
    t.reset()
    t.entry(0, 0xFF, 0x05)
    t.queue()
    t.tried()
    t.each(4)


@clause('01.Q3', "SPCR2's working copy rules, taken when SPE rises and at clock 1")
def _(t):
    t.reset()
    t.write(QILR, 0x08, 1)
    t.queue(spcr2=0x0300)
    t.hold(10)
    t.tried()
    t.write(SPCR2, 0x80, 1)
    t.hold(22)
    t.read(SPCR1)
    t.read(SPSR, 1)
    t.hold(17)
    t.hold(1)
    t.write(SPCR2, 0x01, 1)
    t.hold(31)
    t.read(SPSR, 1)
    t.hold(ENTRY)
    t.read(SPSR, 1)


@clause('01.Q4', 'Command and transmit word are taken at clock 1')
def _(t):
    t.reset()
    t.entry(0, 0xFF, 0x03)
    t.queue(spcr2=0x0100)
    t.hold(1)
    t.tried()
    t.entry(0, 0x00, 0x0C)
    t.hold(10)
    t.hold(21)
    t.entry(1, 0xFF, 0x06)
    t.hold(17)
    t.each(3)


@clause('01.Q5', 'A write touching NEWQP first moves the pointer at clock 1')
def _(t):
    t.reset()
    t.queue(spcr2=0x0F02)
    t.hold(10)
    t.tried()
    t.write(SPCR2 + 1, 0x02, 1)
    t.hold(22)
    t.read(SPSR, 1)
    t.hold(17 + 32)
    t.read(SPSR, 1)
    t.write(SPCR2, 0x0F, 1)
    t.hold(ENTRY)
    t.read(SPSR, 1)
    t.write(SPCR2, 0x0F09)
    t.hold(ENTRY)
    t.read(SPSR, 1)


@clause('01.Q6', 'Bits n: 8, or BITS if BITSE (0 means 16)')
def _(t):
    for bits, command in ((0xA, 0), (0xA, BITSE), (0x8, BITSE), (0xF, BITSE), (0x0, BITSE)):
        t.reset()
        t.entry(0, 0xFFFF, command)
        t.queue(spcr0=MSTR | bits << 10 | 2)
        if (bits, command) == (0xA, 0):
            t.tried()
        for _ in range(36):
            t.hold(2)
        t.read(SPSR, 1)


@clause('01.Q7', 'Pre-delay p: SPBR, or DSCKL (0 means 128) if DSCK')
def _(t):
    for dsckl, command in ((5, 0), (5, DSCK), (1, DSCK), (127, DSCK), (0, DSCK)):
        t.reset()
        t.entry(0, 0xFF, command)
        t.queue(spcr1=dsckl << 8 | 4)
        if (dsckl, command) == (5, 0):
            t.tried()
        delay = (dsckl or 128) if command else 2
        if delay > 1:
            t.hold(delay - 1)
        t.each(3)


@clause('01.Q8', 'Edge j falls at clock p + (j-1) x SPBR, j = 1..2n')
def _(t):
    for spbr in (2, 3, 5):
        t.reset()
        t.queue(spcr0=MSTR | spbr)
        if spbr == 2:
            t.tried()
        t.each(16 * spbr + 2)


@clause('01.Q9', 'MISO is read on odd edges for CPHA=0, even for CPHA=1')
def _(t):
    for cpha in (0, CPHA):
        t.reset()
        t.queue(spcr0=MSTR | cpha | 4)
        if not cpha:
            t.tried()
        for edge in range(1, 17):
            t.hold(3, pins=0x08)
            # Ones on edges 1, 2, 5, 8, 11 and 14.
            t.hold(1, pins=0x09 if edge in (1, 2, 5, 8, 11, 14) else 0x08)
        t.read(RECEIVE)


@clause('01.Q10', 'MOSI: low n bits, highest first, changes on the others')
def _(t):
    for cpha in (0, CPHA):
        t.reset()
        t.entry(0, 0xF94D, BITSE)
        t.queue(spcr0=MSTR | cpha | 0x2800 | 3)
        if not cpha:
            t.tried()
        t.each(64)


@clause('01.Q11', 'Otherwise it holds')
def _(t):
    t.reset()
    t.entry(0, 0x01), t.entry(1, 0x01)
    t.queue(spcr0=MSTR | CPHA | 2, spcr2=0x0100)
    t.hold(32)
    t.tried()
    t.each(19)


@clause('01.Q12', "It is 0 from SPE's rise to the first bit")
def _(t):
    t.reset()
    t.entry(0, 0xFF)
    t.queue(spcr0=MSTR | CPHA | 6)
    t.hold(96)
    t.tried()
    t.write(SPCR1, 0x8404)
    t.each(8)


@clause('01.Q13', 'SCK rests at CPOL')
def _(t):
    for cpol in (0, CPOL):
        t.reset()
        if not cpol:
            t.tried()
        t.queue(spcr0=MSTR | cpol | 2, spcr2=0x0100)
        t.each(4)
        t.hold(28)
        t.hold(10)


@clause('01.Q14', 'Unless MISO is assigned and an input, zeros are read')
def _(t):
    for pins in (0x7B7E, 0x7A7E, 0x7B7F, 0x7A7F):
        t.reset()
        t.queue(pins=pins)
        t.hold(32, pins=0xFF)
        if pins == 0x7B7E:
            t.tried()
        t.read(RECEIVE)


@clause('01.Q15', 'At edge 2n the word is stored, unused bits zero, CPTQP set')
def _(t):
    t.reset()
    t.write(RECEIVE + 6, 0xAAAA)
    t.queue(spcr2=0x0303)
    t.hold(31)
    t.tried()
    t.read(RECEIVE + 6)
    t.read(SPSR, 1)
    t.hold(1)
    t.read(RECEIVE + 6)
    t.read(SPSR, 1)


@clause('01.Q16', 'Then 17 clocks, or 32 x DTL (0 means 8,192) if DT')
def _(t):
    for dtl, command in ((1, 0), (1, DT), (3, DT), (255, DT), (0, DT)):
        t.reset()
        t.entry(0, 0, command), t.entry(1, 0xFF, 0x0F)
        t.queue(spcr2=0x0100, spcr1=0x0400 | dtl)
        if (dtl, command) == (1, 0):
            t.tried()
        delay = (32 * dtl or 8192) if command else 17
        t.hold(32 + delay)
        t.each(2)


@clause('01.Q17', 'CPTQP equals working ENDQP: SPIF rises at edge 2n')
def _(t):
    t.reset()
    t.queue(spcr2=0x0200)
    t.hold(2 * ENTRY)
    t.tried()
    t.read(SPSR, 1)
    t.hold(31)
    t.read(SPSR, 1)
    t.hold(1)
    t.read(SPSR, 1)


@clause('01.Q18', 'Without WREN SPE falls there')
def _(t):
    t.reset()
    t.queue(spcr2=0x0000)
    t.hold(31)
    t.tried()
    t.read(SPCR1)
    t.hold(1)
    t.read(SPCR1)
    t.hold(200)
    t.read(SPSR, 1)


@clause('01.Q19', 'With it the pointer goes to 0, or NEWQP if WRTO')
def _(t):
    for wrto in (0, WRTO):
        t.reset()
        t.queue(spcr2=WREN | wrto | 0x0504)
        if not wrto:
            t.tried()
        t.hold(2 * ENTRY)
        t.read(SPCR1)
        t.hold(ENTRY)
        t.read(SPSR, 1)
        t.hold(ENTRY)
        t.read(SPSR, 1)


@clause('01.Q20', 'Otherwise pointer + 1 modulo 16')
def _(t):
    t.reset()
    t.queue(spcr2=0x020D)
    t.tried()
    for _ in range(6):
        t.hold(ENTRY)
        t.read(SPSR, 1)


@clause('01.Q21', 'A pending NEWQP wins')
def _(t):
    t.reset()
    t.queue(spcr2=WREN | 0x0100)
    t.hold(ENTRY + 10)
    t.tried()
    t.write(SPCR2, WREN | 0x0F0A)
    t.hold(22)
    t.read(SPSR, 1)
    t.hold(17 + 32)
    t.read(SPSR, 1)


@clause('01.Q22', "HALT at the delay's last clock: HALTA rises")
def _(t):
    t.reset()
    t.queue(spcr2=0x0300)
    t.hold(33)
    t.write(SPCR3, HALT, 1)
    t.tried()
    t.hold(15)
    t.read(SPSR, 1)
    t.hold(1)
    t.read(SPSR, 1)
    t.reset()
    t.queue(spcr2=0x0300)
    t.write(SPCR3, HALT, 1)
    t.hold(48)
    t.write(SPCR3, 0, 1)
    t.hold(33)
    t.read(SPSR, 1)


@clause('01.Q23', 'The next entry waits for HALT to clear')
def _(t):
    t.reset()
    t.entry(1, 0xFF, 0x0F)
    t.queue(spcr2=0x0300)
    t.write(SPCR3, HALT, 1)
    t.hold(ENTRY)
    t.tried()
    t.hold(500)
    t.read(SPSR, 1)
    t.write(SPCR3, 0, 1)
    t.each(3)
    t.hold(29)
    t.read(SPSR, 1)


@clause('01.Q24', 'SPBR 0 or 1: no entry starts')
def _(t):
    for spbr in (0, 1, 2):
        t.reset()
        t.entry(0, 0xFF, 0x0F)
        if not spbr:
            t.tried()
        t.queue(spcr0=MSTR | spbr)
        t.each(3)
        t.hold(10000)
        t.read(SPSR, 1)


@clause('01.Q25', 'PQS3 assigned, input and low with MSTR and SPE')
def _(t):
    for pins, level in ((0x7B76, 0xFF), (0x737E, 0x00), (0x7376, 0x00), (0x7B7E, 0x00), (0x7B76, 0x00)):
        t.reset()
        t.queue(pins=pins)
        if (pins, level) == (0x7B76, 0xFF):
            t.tried()
        t.hold(1, pins=level)
        t.read(SPSR, 1)
        t.read(SPCR1)


@clause('01.Q26', 'MODF rises, SPE falls, the entry is abandoned')
def _(t):
    t.reset()
    t.write(RECEIVE, 0x1234)
    t.queue(pins=0x7B76)
    t.hold(20)
    t.tried()
    t.hold(1, pins=0x00)
    t.read(SPSR, 1)
    t.read(SPCR0, 4)
    t.hold(100)
    t.read(SPSR, 1)
    t.read(RECEIVE)


@clause('01.Q27', 'A write that clears SPE abandons likewise')
def _(t):
    t.reset()
    t.write(RECEIVE, 0x1234)
    t.queue(spcr2=0x0F00)
    t.hold(20)
    t.tried()
    t.write(SPCR1, 0x0404)
    t.hold(100)
    t.read(SPSR, 1)
    t.read(RECEIVE)


@clause('01.Q28', "PCS hold the command's value to the end of edge 2n's clock")
def _(t):
    t.reset()
    t.write(PORTQS, 0x78, 1)
    t.entry(0, 0, 0x05)
    t.queue(spcr2=0x0100)
    t.tried()
    t.hold(1)
    t.hold(30)
    t.hold(1)
    t.hold(1)


@clause('01.Q29', 'Through delay and halt if CONT, else PORTQS')
def _(t):
    for cont in (CONT, 0):
        t.reset()
        t.write(PORTQS, 0x78, 1)
        t.entry(0, 0, cont | 0x05)
        t.queue(spcr2=0x0100)
        t.write(SPCR3, HALT, 1)
        t.hold(32)
        if cont:
            t.tried()
        t.hold(1)
        t.hold(16)
        t.hold(50)


@clause('01.Q30', 'PORTQS before the first entry')
def _(t):
    t.reset()
    t.write(PORTQS, 0x28, 1)
    t.entry(0, 0, 0x0A)
    t.tried()
    t.queue()
    t.read(PORTQS, 1)
    t.hold(1)
