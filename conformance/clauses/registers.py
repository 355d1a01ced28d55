"""The register map: what is where, what a reset leaves there, what a write keeps."""
from .builder import *


def register(number, words, offset, width, *values):
    """Its value after a reset; then each value written and read back."""
    @clause(number, words)
    def _(t):
        t.reset()
        t.tried()
        t.read(offset, width)
        for value in values:
            t.write(offset, value, width)
            t.read(offset, width)


@clause('01.M1', "Offsets from the module's base")
def _(t):
    t.reset()
    t.write(QIVR, 0x40, 1)
    t.write(TRANSMIT + 2, 0x1234)
    t.tried()
    for offset in (0x00, 0x04, 0x08, 0x0A, 0x0C, 0x14, 0x16, 0x18, 0x1A, 0x1C, 0x1E, 0x120, 0x122, 0x140):
        t.read(offset)


@clause('01.M2', 'Words are big-endian')
def _(t):
    t.reset()
    t.tried()
    t.write(TRANSMIT, 0x1234_5678, 4)
    for offset in range(4):
        t.read(TRANSMIT + offset, 1)
    t.read(TRANSMIT)
    t.read(TRANSMIT + 2)
    t.write(TRANSMIT + 1, 0xAB, 1)
    t.read(TRANSMIT, 4)


register('01.M3', '00 QSMCR: STOP, FRZ, SUPV, IARB; 0080', QSMCR, 2, 0x000F, 0x0080, 0x008A, 0x0000)
register('01.M4', '04 QILR: ILQSPI, ILSCI; 00', QILR, 1, 0x3F, 0x2A, 0x15, 0xC0)
register('01.M5', '05 QIVR; 0F, bit 0 reads 1', QIVR, 1, 0x00, 0x40, 0xFE, 0xFF)
register('01.M6', '08 SCCR0: SCBR; 0004', SCCR0, 2, 0x1FFF, 0x0AAA, 0x1555, 0x0000)
register('01.M7', '0A SCCR1, 15 fields; 0', SCCR1, 2, *(1 << n for n in range(1, 13)))
register('01.M10', '15 PORTQS; 0', PORTQS, 1, 0xFF, 0x55)
register('01.M11', '16 PQSPAR: 6:3 and 1:0; 0', PQSPAR, 1, 0x7B, 0x51, 0x2A, 0x84)
register('01.M12', '17 DDRQS; 0', DDRQS, 1, 0xFF, 0xAA, 0x55)
register('01.M13', '18 SPCR0: MSTR, WOMQ, BITS, CPOL, CPHA, SPBR; 0104', SPCR0, 2, 0x8000, 0x2000, 0x0200, 0x01FF, 0xBFAA, 0x0055)
register('01.M14', '1A SPCR1: SPE, DSCKL, DTL; 0404', SPCR1, 2, 0x7F00, 0x00FF, 0x5AA5)
register('01.M15', '1C SPCR2: SPIFIE, WREN, WRTO, ENDQP, NEWQP; 0', SPCR2, 2, 0x8000, 0x4000, 0x2000, 0x0F00, 0x000F, 0xE50A)
register('01.M16', '1E SPCR3: LOOPQ, HMIE, HALT; 0', SPCR3, 1, 0x02, 0x01, 0x03)
register('01.M19', '120-13F transmit words; 0', TRANSMIT + 0x1E, 2, 0xFFFF, 0x5AA5)
register('01.M20', '140-14F command bytes; 0', COMMAND + 0xF, 1, 0xFF, 0x5A)
register('01.M21', 'Byte 14 is in the map and reads zero', 0x14, 1, 0xFF)


@clause('01.M8', '0C SCSR, nine flags; 0180')
def _(t):
    t.reset()
    t.tried()
    t.read(SCSR)
    t.read(SCSR, 1)
    t.read(SCSR + 1, 1)
    t.read(SCSR, 4)


@clause('01.M9', '0E SCDR: 8:0; both sides 0')
def _(t):
    t.reset()
    t.tried()
    t.read(SCDR)
    t.write(SCDR, 0x1FF)
    t.read(SCDR)


@clause('01.M17', '1F SPSR: SPIF, MODF, HALTA, CPTQP; 0')
def _(t):
    t.reset()
    t.tried()
    t.read(SPSR, 1)
    t.queue(spcr2=0x0505)
    t.hold(32)
    t.read(SPSR, 1)


@clause('01.M18', '100-11F receive words; 0')
def _(t):
    t.reset()
    t.tried()
    for offset in range(0, 0x20, 2):
        t.read(RECEIVE + offset)
    t.write(RECEIVE + 0x1E, 0x5AA5)
    t.read(RECEIVE + 0x1C, 4)


@clause('01.M22', 'Holes: 02, 03, 06, 07, 10-13, 20-FF, above 14F')
def _(t):
    t.reset()
    t.tried()
    for offset in (0x01, 0x02, 0x03, 0x04, 0x05, 0x06, 0x07, 0x08, 0x0F, 0x10, 0x11, 0x12, 0x13, 0x14, 0x1F, 0x20, 0x21, 0x80, 0xFE, 0xFF, 0x100, 0x14F,
                   0x150, 0x1FF, 0x8008, 0xFFFF):
        t.read(offset, 1)


@clause('01.M23', 'Command byte: CONT, BITSE, DT, DSCK, PCS')
def _(t):
    t.reset()
    for index, command in enumerate((CONT | 0x1, BITSE | 0x2, DT | 0x4, DSCK | 0x8)):
        t.entry(index, 0xA5A5, command)
    t.queue(spcr0=MSTR | 0x2400 | 2, spcr2=0x0300, spcr1=0x0501)
    t.tried()
    t.each(220)


@clause('01.M24', 'A word written reads back; no other word moves but SCSR and PORTQS')
def _(t):
    t.reset()
    t.tried()
    writes = ((QSMCR, 0x0085), (QILR, 0x2A51), (SCCR0, 0x0123), (SCCR1, 0x1AF0), (PQSPAR, 0x7B55), (SPCR0, 0xA234), (SPCR1, 0x1357), (SPCR2, 0xE504))
    for offset, value in writes:
        t.write(offset, value)
        for other, _ in writes:
            t.read(other)


@clause('01.M25', 'At rest a word without an unmodelled bit is let through')
def _(t):
    t.reset()
    t.tried()
    for offset, value in ((QSMCR, 0x1FFF), (QILR, 0xFFFF), (SCCR0, 0xFFFF), (SCCR1, 0x9FF2), (SCSR, 0xFFFF), (SCDR, 0xFFFF), (0x14, 0xFFFF), (PQSPAR, 0xFFFF),
                          (SPCR0, 0xBFFF), (SPCR1, 0x7FFF), (SPCR2, 0xFFFF), (SPCR3, 0xFBFF), (RECEIVE, 0xFFFF), (TRANSMIT, 0xFFFF), (COMMAND, 0xFFFF)):
        t.write(offset, value)
        t.read(offset)
