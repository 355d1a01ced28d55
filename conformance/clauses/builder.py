"""A trace, built record by record, and the table of clauses."""

CLAUSES = {}  # number -> (words, trace, the record from which on the clause is tried)
UNSEEN = {}  # number -> (words, why no log shows it)

# Offsets.
QSMCR, QILR, QIVR, SCCR0, SCCR1, SCSR, SCDR = 0x00, 0x04, 0x05, 0x08, 0x0A, 0x0C, 0x0E
PORTQS, PQSPAR, DDRQS, SPCR0, SPCR1, SPCR2, SPCR3, SPSR = 0x15, 0x16, 0x17, 0x18, 0x1A, 0x1C, 0x1E, 0x1F
RECEIVE, TRANSMIT, COMMAND = 0x100, 0x120, 0x140
# SCCR1.
ILT, PT, PE, M, WAKE, TIE, TCIE, RIE, ILIE, TE, RE, RWU = (1 << n for n in range(12, 0, -1))
# SPCR0, SPCR1, SPCR2, SPCR3 as bytes or words.
MSTR, CPOL, CPHA = 0x8000, 0x0200, 0x0100
SPE = 0x8000
SPIFIE, WREN, WRTO = 0x8000, 0x4000, 0x2000
HMIE, HALT = 0x02, 0x01
# Command byte.
CONT, BITSE, DT, DSCK = 0x80, 0x40, 0x20, 0x10


class Trace:
    def __init__(self):
        self.bytes = bytearray()
        self.records = 0
        self.point = 0
        self.scbr = 4

    def raw(self, *data, records=1):
        """Bytes as they are."""
        self.bytes += bytes(data)
        self.records += records

    def tried(self):
        """The clause is tried from the next record on; what stands before only leads there."""
        self.point = self.records

    def reset(self):
        self.scbr = 4
        self.raw(0x01)

    def hold(self, clocks, rxd=1, pins=0xFF):
        if clocks > 0xFFFF:
            self.raw(0x05, pins, rxd, *clocks.to_bytes(4, 'big'))
        else:
            self.raw(0x02, pins, rxd, *clocks.to_bytes(2, 'big'))

    def read(self, offset, width=2, user=False):
        self.raw(0x03, width | (0 if user else 0x80), *offset.to_bytes(2, 'big'))

    def write(self, offset, value, width=2, user=False):
        self.raw(0x04, width | (0 if user else 0x80), *offset.to_bytes(2, 'big'), *value.to_bytes(4, 'big'))

    def each(self, clocks, rxd=1, pins=0xFF):
        """So many holds of one clock."""
        for _ in range(clocks):
            self.hold(1, rxd, pins)

    # The serial half.
    def serial(self, sccr1, scbr=1):
        """A rate at which a sample takes 2 x scbr clocks, then SCCR1."""
        self.scbr = scbr
        self.write(SCCR0, scbr)
        self.write(SCCR1, sccr1)

    def samples(self, levels):
        """RXD sample by sample, as '1110000'; a hold for each run of a level."""
        start = 0
        for at in range(1, len(levels) + 1):
            if at == len(levels) or levels[at] != levels[start]:
                self.hold(2 * self.scbr * (at - start), int(levels[start]))
                start = at

    def status(self):
        self.read(SCSR)

    def data(self):
        self.read(SCDR)

    def drain(self):
        """Status, then data."""
        self.status()
        self.data()

    def send(self, word):
        """A word to be sent: the status is seen, so TDRE falls."""
        self.status()
        self.write(SCDR, word)

    # The queue half.
    def queue(self, spcr0=MSTR | 2, spcr2=0, spcr1=0x0404, pins=0x7B7E):
        """Pins assigned, MISO an input and all others outputs, and SPE set last."""
        self.write(PQSPAR, pins)
        self.write(SPCR0, spcr0)
        self.write(SPCR2, spcr2)
        self.write(SPCR1, spcr1 | SPE)

    def entry(self, index, word=0xA5, command=0):
        self.write(TRANSMIT + 2 * index, word)
        self.write(COMMAND + index, command, 1)


def frame(word, bits=8, stop=1, times=16):
    """The samples of a frame: start bit, data lowest bit first, stop bit."""
    return '0' * times + ''.join(str(word >> n & 1) * times for n in range(bits)) + str(stop) * times


def changed(levels, *places):
    """The same samples with those at the places, from 1, turned."""
    turned = list(levels)
    for place in places:
        turned[place - 1] = '1' if turned[place - 1] == '0' else '0'
    return ''.join(turned)


def clause(number, words):
    def add(build):
        trace = Trace()
        build(trace)
        assert number not in CLAUSES and trace.point < max(trace.records, 1)
        CLAUSES[number] = (words, bytes(trace.bytes), trace.point)
        return build
    return add


def unseen(number, words, why):
    UNSEEN[number] = (words, why)
