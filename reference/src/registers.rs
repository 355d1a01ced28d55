//! The registers: word offsets and bits, by the part of the module that has them.

/// The module's own, and its pins.
pub mod own {
    // Word offsets.
    pub const QSMCR: u16 = 0x00;
    pub const QILR_QIVR: u16 = 0x04;
    pub const PORTQS: u16 = 0x14;
    pub const PQSPAR_DDRQS: u16 = 0x16;

    // QSMCR.
    pub const STOP: u16 = 1 << 15;
    pub const FRZ: u16 = 3 << 13;
    pub const SUPV: u16 = 1 << 7;
    pub const QSMCR_BITS: u16 = SUPV | 0x000F;

    pub const QILR_BITS: u8 = 0x3F;
    pub const PQSPAR_BITS: u8 = 0x7B;

    // Pins.
    pub const MISO: u8 = 1 << 0;
    pub const MOSI: u8 = 1 << 1;
    pub const SCK: u8 = 1 << 2;
    pub const PCS0: u8 = 1 << 3;
    pub const PCS: u8 = 0xF << 3;
    pub const TXD: u8 = 1 << 7;
}

/// The serial half's.
pub mod sci {
    // Word offsets.
    pub const SCCR0: u16 = 0x08;
    pub const SCCR1: u16 = 0x0A;
    pub const SCSR: u16 = 0x0C;
    pub const SCDR: u16 = 0x0E;

    // SCCR0.
    pub const SCBR: u16 = 0x1FFF;

    // SCCR1.
    pub const LOOPS: u16 = 1 << 14;
    pub const WOMS: u16 = 1 << 13;
    pub const ILT: u16 = 1 << 12;
    pub const PT: u16 = 1 << 11;
    pub const PE: u16 = 1 << 10;
    pub const M: u16 = 1 << 9;
    pub const WAKE: u16 = 1 << 8;
    pub const TIE: u16 = 1 << 7;
    pub const TCIE: u16 = 1 << 6;
    pub const RIE: u16 = 1 << 5;
    pub const ILIE: u16 = 1 << 4;
    pub const TE: u16 = 1 << 3;
    pub const RE: u16 = 1 << 2;
    pub const RWU: u16 = 1 << 1;
    pub const SBK: u16 = 1 << 0;

    // SCSR.
    pub const TDRE: u16 = 1 << 8;
    pub const TC: u16 = 1 << 7;
    pub const RDRF: u16 = 1 << 6;
    pub const RAF: u16 = 1 << 5;
    pub const IDLE: u16 = 1 << 4;
    pub const OR: u16 = 1 << 3;
    pub const NF: u16 = 1 << 2;
    pub const FE: u16 = 1 << 1;
    pub const PF: u16 = 1 << 0;

    pub const SCCR1_UNMODELLED: u16 = LOOPS | WOMS | SBK;
    pub const SCCR1_MODELLED: u16 = 0x1FFE;
    pub const SCCR1_GUARDED: u16 = ILT | PT | PE | M | WAKE;
    pub const RECEIVE_FLAGS: u16 = RDRF | IDLE | OR | NF | FE | PF;
    pub const TRANSMIT_FLAGS: u16 = TDRE | TC;
    pub const SCDR_BITS: u16 = 0x01FF;

    /// Data bits of a frame.
    pub fn data_bits(sccr1: u16) -> u16 {
        if sccr1 & M == 0 {
            8
        } else {
            9
        }
    }
}

/// The queue half's, and its command bytes.
pub mod qspi {
    // Word offsets.
    pub const SPCR0: u16 = 0x18;
    pub const SPCR1: u16 = 0x1A;
    pub const SPCR2: u16 = 0x1C;
    pub const SPCR3_SPSR: u16 = 0x1E;

    // SPCR0.
    pub const MSTR: u16 = 1 << 15;
    pub const WOMQ: u16 = 1 << 14;
    pub const CPOL: u16 = 1 << 9;
    pub const CPHA: u16 = 1 << 8;
    pub const SPBR: u16 = 0x00FF;
    pub const SPCR0_MODELLED: u16 = !WOMQ;

    // SPCR1.
    pub const SPE: u16 = 1 << 15;
    pub const DTL: u16 = 0x00FF;

    // SPCR2.
    pub const SPIFIE: u16 = 1 << 15;
    pub const WREN: u16 = 1 << 14;
    pub const WRTO: u16 = 1 << 13;
    pub const NEWQP: u16 = 0x000F;
    pub const SPCR2_BITS: u16 = 0xEF0F;

    // SPCR3, the upper byte of its word.
    pub const LOOPQ: u16 = 1 << 10;
    pub const HMIE: u16 = 1 << 9;
    pub const HALT: u16 = 1 << 8;

    // SPSR, the lower byte of that word.
    pub const SPIF: u16 = 1 << 7;
    pub const MODF: u16 = 1 << 6;
    pub const HALTA: u16 = 1 << 5;

    // Command byte.
    pub const CONT: u8 = 1 << 7;
    pub const BITSE: u8 = 1 << 6;
    pub const DT: u8 = 1 << 5;
    pub const DSCK: u8 = 1 << 4;
    pub const PCS: u8 = 0x0F;
}
