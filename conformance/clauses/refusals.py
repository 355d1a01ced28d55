"""What is refused, in which order, and what a refusal leaves."""
from .builder import *


@clause('01.S1', '1: width not 1, 2 or 4')
def _(t):
    t.reset()
    t.tried()
    for width in (0, 3, 5, 6, 8, 16, 127):
        t.read(SCCR0, width)
        t.write(SCCR0, 0, width)
    for width in (1, 2, 4):
        t.read(SCCR0, width)


@clause('01.S2', '1: odd offset with 2 or 4')
def _(t):
    t.reset()
    t.tried()
    for offset in (0x09, 0x0B, 0x121, 0x14F):
        for width in (2, 4):
            t.read(offset, width)
            t.write(offset, 0, width)
        t.read(offset, 1)
    t.read(0x0A, 4)


@clause('01.S3', '1: written value too big')
def _(t):
    t.reset()
    t.tried()
    for value in (0xFF, 0x100, 0x1_0000, 0x8000_0000):
        t.write(COMMAND, value, 1)
    for value in (0xFFFF, 0x1_0000, 0x8000_0000):
        t.write(TRANSMIT, value, 2)
    t.write(TRANSMIT, 0xFFFF_FFFF, 4)
    t.read(TRANSMIT, 4)


@clause('01.S4', '2: a byte touched is not in the map')
def _(t):
    t.reset()
    t.tried()
    for offset in (0x00, 0x0C, 0x0E, 0x18, 0x1C, 0x1E, 0x14C, 0x14E, 0xFFFC, 0xFFFE):
        t.read(offset, 4)
    for offset in (0x02, 0x06, 0x10, 0x12, 0x20, 0xFE, 0x150, 0xFFFE):
        t.read(offset, 2)
        t.write(offset, 0, 2)
    t.read(0x14E, 2)


@clause('01.S5', '3: STOP, FRZ')
def _(t):
    t.reset()
    t.tried()
    for value in (0x8080, 0x4080, 0x2080, 0x1F80):
        t.write(QSMCR, value)
        t.read(QSMCR)
    t.write(QSMCR, 0x20, 1)


@clause('01.S6', '3: LOOPS, WOMS, SBK')
def _(t):
    t.reset()
    t.tried()
    for value in (0x4000, 0x2000, 0x0001, 0x8000):
        t.write(SCCR1, value)
        t.read(SCCR1)
    t.write(SCCR1 + 1, 0x01, 1)
    t.write(SCCR1, 0x40, 1)


@clause('01.S7', '3: WOMQ, BITS 1 to 7')
def _(t):
    t.reset()
    t.tried()
    t.write(SPCR0, 0xC004)
    for bits in range(16):
        t.write(SPCR0, 0x8004 | bits << 10)
        t.read(SPCR0)
    t.write(SPCR0 + 1, 0x10, 1)
    t.write(SPCR0, 0x84, 1)


@clause('01.S8', '3: LOOPQ')
def _(t):
    t.reset()
    t.tried()
    t.write(SPCR3, 0x04, 1)
    t.write(SPCR3, 0x0700, 2)
    t.write(SPCR3, 0xFB, 1)
    t.read(SPCR3)


@clause('01.S9', '3: SPE with MSTR clear')
def _(t):
    t.reset()
    t.tried()
    t.write(SPCR1, 0x8404)
    t.write(SPCR1, 0x80, 1)
    t.read(SPCR1)
    t.write(SPCR0, 0x8004)
    t.write(SPCR1, 0x8404)
    t.read(SPCR1)


@clause('01.S10', '4: a guarded field changed while its half is on')
def _(t):
    t.reset()
    t.write(SCCR1, RE)
    t.tried()
    t.write(SCCR0, 0x0005)
    t.write(SCCR0, 0x0004)
    t.write(SCCR1, M | RE)
    t.write(SCCR1, RIE | RE)
    t.read(SCCR0, 4)


@clause('01.S11', '1 to 4: value 0, module unchanged')
def _(t):
    t.reset()
    t.write(SCCR1, RE)
    t.write(TRANSMIT, 0x1234)
    t.tried()
    for offset, value, width in ((SCCR0, 7, 3), (0x10, 7, 2), (SCCR1, 0x4003, 2), (SCCR0, 7, 2), (TRANSMIT, 0x1_FFFF, 2)):
        t.write(offset, value, width)
    t.read(TRANSMIT, 3)
    t.read(0x06, 2)
    t.read(SCCR0, 4)
    t.read(SCSR, 4)
    t.read(TRANSMIT, 2)


@clause('01.S12', '5: unknown record kind')
def _(t):
    t.reset()
    t.tried()
    t.read(SCSR)
    t.raw(0x06, 0x82, 0x00, 0x0C, records=0)


@clause('01.S13', '6: record cut by the end')
def _(t):
    t.reset()
    t.tried()
    t.read(SCSR)
    t.raw(0x04, 0x82, 0x00, 0x08, 0x00, 0x00, 0x00, records=0)


@clause('01.S15', '5 to 7: the trace stops before that record')
def _(t):
    t.reset()
    t.tried()
    t.write(SCCR0, 7)
    t.raw(0x00, records=0)
    t.raw(0x01, records=0)
    t.raw(0x03, 0x82, 0x00, 0x08, records=0)


@clause('01.S16', 'Order for an access: 1, 2, privilege')
def _(t):
    t.reset()
    t.tried()
    t.read(0x03, 2, user=True)
    t.read(0x02, 2, user=True)
    t.read(0x02, 3, user=True)
    t.read(QSMCR, 2, user=True)
    t.write(0x03, 0x4000, 2, user=True)
    t.write(0x02, 0x4000, 2, user=True)
    t.write(QSMCR, 0x4000, 2, user=True)


@clause('01.S17', 'Then 3, 4')
def _(t):
    t.reset()
    t.write(SCCR1, RE)
    t.write(SPCR0, 0x8004)
    t.write(SPCR1, 0x8404)
    t.tried()
    t.write(SCCR1, 0x4000 | M | RE)
    t.write(SCCR1, M | RE)
    t.write(SPCR0, 0xC005)
    t.write(SPCR0, 0x8404)
    t.write(SPCR0, 0x8005)


@clause('01.S19', '1 to 4 are answered and the trace goes on')
def _(t):
    t.reset()
    t.tried()
    t.read(SCCR0, 3)
    t.read(SCCR0)
    t.read(0x02)
    t.read(SCCR0)
    t.write(SCCR1, 0x0001)
    t.read(SCCR0)


@clause('01.S20', 'After 5 to 7 earlier answers and their state stand')
def _(t):
    t.reset()
    t.write(SCCR0, 9)
    t.tried()
    t.read(SCCR0)
    t.raw(0xFF, records=0)


@clause('01.S22', "Bits that don't exist: SCCR0, SCCR1")
def _(t):
    t.reset()
    t.tried()
    for value in (0xFFFF, 0xE000, 0x1FFF):
        t.write(SCCR0, value)
        t.read(SCCR0)
    for value in (0x8000, 0x9FFE, 0x0000):
        t.write(SCCR1, value & ~(TE | RE))
        t.read(SCCR1)


@clause('01.S23', "Bits that don't exist: SPCR2, SPCR3")
def _(t):
    t.reset()
    t.tried()
    t.write(SPCR2, 0xFFFF)
    t.read(SPCR2)
    t.write(SPCR2, 0x10F0)
    t.read(SPCR2)
    t.write(SPCR3, 0xFB, 1)
    t.read(SPCR3)


@clause('01.S24', "Bits that don't exist: QSMCR, QILR, PQSPAR")
def _(t):
    t.reset()
    t.tried()
    t.write(QSMCR, 0x1FFF)
    t.read(QSMCR)
    t.write(QILR, 0xFF, 1)
    t.read(QILR, 1)
    t.write(PQSPAR, 0xFF, 1)
    t.read(PQSPAR, 1)


@clause('01.S25', 'The halves of a long act in address order')
def _(t):
    t.reset()
    t.tried()
    t.write(SPCR0, 0x8004_8404, 4)
    t.read(SPCR0, 4)
    t.write(SPCR1, 0x0404)
    t.write(SPCR2, 0x0003)
    t.write(SPCR1, 0x8404_0F05, 4)
    t.entry(3), t.entry(5)
    t.hold(81)
    t.read(SPSR, 1)


@clause('01.S26', 'Each is tested against what the earlier would leave')
def _(t):
    t.reset()
    t.write(SPCR0, 0x8004)
    t.write(SPCR1, 0x8404)
    t.tried()
    t.write(SPCR0, 0x0004_8404, 4)
    t.write(SPCR0, 0x0004_0404, 4)
    t.read(SPCR0, 4)


@clause('01.S27', 'One refused half refuses all; a 3 before a 4')
def _(t):
    t.reset()
    t.tried()
    t.write(SCCR0, 0x0007_4000, 4)
    t.read(SCCR0, 4)
    t.write(SCCR1, RE)
    t.write(SCCR0, 0x0007_4004, 4)
    t.write(SCCR0, 0x0007_0004, 4)
    t.write(SCCR0, 0x0004_0204, 4)
    t.read(SCCR0, 4)


@clause('01.S28', 'Privilege: QSMCR, QILR, QIVR; the rest while SUPV is set')
def _(t):
    t.reset()
    t.tried()
    t.read(QIVR, 1, user=True)
    t.read(SCCR0, 2, user=True)
    t.write(TRANSMIT, 0x1234, user=True)
    t.read(TRANSMIT)
    t.write(QSMCR, 0x0000)
    for offset, width in ((QSMCR, 2), (QILR, 1), (QIVR, 1), (SCCR0, 2), (0x14, 2), (SPCR0, 4), (TRANSMIT, 2)):
        t.read(offset, width, user=True)
    t.write(QIVR, 0x40, 1, user=True)
    t.write(TRANSMIT, 0x1234, user=True)
    t.read(QIVR, 1)
    t.read(TRANSMIT)


@clause('01.S29', 'Privilege: reads zero, writes nothing, no side effect')
def _(t):
    t.reset()
    t.serial(TE)
    t.hold(400)
    t.tried()
    t.read(SCSR, 2, user=True)
    t.write(SCDR, 0x55)
    t.status()
    t.write(SCDR, 0x55, 2, user=True)
    t.status()
    t.write(SCCR1, 0x4000, 2, user=True)
    t.read(SCCR1)


@clause('01.S30', 'Guarded: SPCR0 while SPE is set')
def _(t):
    t.reset()
    t.write(SPCR0, 0x8004_8404, 4)
    t.tried()
    for value in (0x8005, 0x8104, 0x8204, 0xA004, 0x0004, 0x8004):
        t.write(SPCR0, value)
    t.write(SPCR0 + 1, 0x05, 1)
    t.read(SPCR0)


@clause('01.S31', 'Guarded: DSCKL and DTL while SPE is set')
def _(t):
    t.reset()
    t.write(SPCR0, 0x8004_8404, 4)
    t.tried()
    for value in (0x8504, 0x8405, 0x0504, 0x8404):
        t.write(SPCR1, value)
    t.write(SPCR1 + 1, 0x05, 1)
    t.write(SPCR1, 0x0404)
    t.write(SPCR1, 0x0505)
    t.read(SPCR1)


@clause('01.S32', 'Guarded: SCCR0')
def _(t):
    t.reset()
    t.write(SCCR1, TE)
    t.tried()
    t.write(SCCR0, 0x1004)
    t.write(SCCR0, 0x0005)
    t.write(SCCR0, 0x10, 1)
    t.write(SCCR0, 0xE004)
    t.read(SCCR0)


@clause('01.S33', 'Guarded: ILT, PT, PE, M, WAKE')
def _(t):
    t.reset()
    t.write(SCCR1, RE)
    t.tried()
    for bit in (ILT, PT, PE, M, WAKE):
        t.write(SCCR1, RE | bit)
    for bit in (TIE, TCIE, RIE, ILIE, RWU, TE):
        t.write(SCCR1, RE | bit)
    t.read(SCCR1)


@clause('01.S34', 'While TE or RE is set or a frame or preamble runs')
def _(t):
    t.reset()
    t.serial(TE)
    t.hold(2)
    t.write(SCCR1, 0)
    t.tried()
    t.write(SCCR0, 2)
    t.hold(318)
    t.write(SCCR0, 2)
    t.hold(2)
    t.write(SCCR0, 2)
    t.read(SCCR0)
    t.write(SCCR1, RE)
    t.write(SCCR0, 3)
    t.write(SCCR1, 0)
    t.write(SCCR0, 3)


@clause('01.S35', 'By the state before the write')
def _(t):
    t.reset()
    t.tried()
    t.write(SCCR1, M | RE)
    t.write(SCCR1, 0)
    t.read(SCCR1)
    t.write(SCCR1, M)
    t.write(SCCR1, 0)
    t.write(SCCR1, 0)
    t.read(SCCR1)


unseen('01.S14', '7: fewer than 10 output bytes left (02, L9: 18)', 'the room is lent by a caller')
unseen('01.S18', 'Order for a record: 5, 6, 7 (02, L9: then 10)', 'a log ends the same with each of them')
unseen('01.S21', 'Output past them is unchanged', 'it is memory of a caller')
