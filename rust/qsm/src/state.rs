//! The module's state, part by part. A host may look inside and need not.

c_struct!(
    /// Flags of the serial half.
    Flags {
        /// As in SCSR.
        bits: u16,
    }
);

c_struct!(
    /// SCSR.
    Status {
        /// The flags that are set.
        flags: Flags,
        /// Those that a status read has shown.
        seen: Flags,
    }
);

c_struct!(
    /// The frame being received.
    Framer {
        /// A frame is being received.
        framing: bool,
        /// Its start bit.
        starting: bool,
        /// Data bits left, this one included; 0 in the stop bit.
        left: u8,
        /// The last RT taken of this bit.
        rt: u8,
        /// First sample of the vote.
        first: bool,
        /// Second sample of the vote.
        second: bool,
        /// Its noise figure so far.
        noise: u8,
        /// An adjustment has set RT1 of this bit.
        moved: bool,
        /// Its bits so far.
        shift: u16,
    }
);

c_struct!(
    /// The receiver.
    Receiver {
        /// The frame being received.
        framer: Framer,
        /// SCDR as it is read.
        scdr: u16,
        /// The noise figure of the word in it.
        noise: u8,
        /// A frame has entered SCDR since the idle count was last full.
        since: bool,
        /// The last sample.
        last1: bool,
        /// The sample before it.
        last2: bool,
        /// The sample before that.
        last3: bool,
        /// Samples of one in a row.
        idle: u8,
        /// RWU.
        asleep: bool,
    }
);

c_struct!(
    /// The transmitter.
    Transmitter {
        /// A preamble is queued.
        preamble: bool,
        /// Samples left of what runs.
        left: u8,
        /// Its bits.
        shift: u16,
        /// SCDR as it is written.
        scdr: u16,
    }
);

c_struct!(
    /// Frames since the last reset.
    Account {
        /// Taken, the lost ones with them.
        taken: u32,
        /// Lost.
        lost: u32,
    }
);

c_struct!(
    /// The serial half.
    Sci {
        /// SCCR0.
        sccr0: u16,
        /// SCCR1 without RWU.
        sccr1: u16,
        /// Clocks since the last sample.
        prescaler: u16,
        /// SCSR.
        status: Status,
        /// The receiver.
        receiver: Receiver,
        /// The transmitter.
        transmitter: Transmitter,
        /// Frames taken and lost.
        account: Account,
    }
);

c_struct!(
    /// Control registers of the queue.
    Registers {
        /// SPCR3.
        spcr3: u8,
        /// SPCR0.
        spcr0: u16,
        /// SPCR1.
        spcr1: u16,
        /// SPCR2.
        spcr2: u16,
    }
);

c_struct!(
    /// Flags of SPSR.
    SpsrFlags {
        /// The queue is finished.
        spif: bool,
        /// Mode fault.
        modf: bool,
        /// The queue has halted.
        halta: bool,
    }
);

c_struct!(
    /// SPSR.
    Spsr {
        /// The flags that are set.
        flags: SpsrFlags,
        /// Those that a read of SPSR has shown.
        seen: SpsrFlags,
        /// The last entry that was completed.
        cptqp: u8,
    }
);

c_struct!(
    /// The queue's memory.
    Ram {
        /// Receive words.
        receive: [u16; 16],
        /// Transmit words.
        transmit: [u16; 16],
        /// Command bytes.
        commands: [u8; 16],
    }
);

c_struct!(
    /// What comes next in the queue.
    Next {
        /// The working copy of SPCR2.
        working: u16,
        /// The next entry.
        pointer: u8,
        /// NEWQP was written since the last entry began.
        pending: bool,
    }
);

c_struct!(
    /// The entry under way.
    Entry {
        /// The transmit word that it took.
        word: u16,
        /// The command that it took.
        command: u8,
        /// Its edges are under way.
        playing: bool,
        /// The delay after it is under way.
        delaying: bool,
        /// The queue has halted.
        halted: bool,
        /// Clocks to the next edge, or to the end of the delay.
        left: u16,
        /// Edges fallen.
        edges: u8,
        /// Level of MOSI.
        mosi: bool,
        /// Bits read on MISO.
        collected: u16,
        /// The chip selects show the command's value.
        selecting: bool,
    }
);

c_struct!(
    /// The queue half.
    Qspi {
        /// Control registers.
        registers: Registers,
        /// SPSR.
        spsr: Spsr,
        /// The queue's memory.
        ram: Ram,
        /// What comes next.
        next: Next,
        /// The entry under way.
        entry: Entry,
    }
);

c_struct!(
    /// The module.
    Module {
        /// The serial half.
        sci: Sci,
        /// The queue half.
        qspi: Qspi,
        /// QSMCR.
        qsmcr: u16,
        /// QILR.
        qilr: u8,
        /// QIVR.
        qivr: u8,
        /// PORTQS as it was written.
        portqs: u8,
        /// PQSPAR.
        pqspar: u8,
        /// DDRQS.
        ddrqs: u8,
        /// Pin levels of the last hold.
        inputs: u8,
        /// Clocks since reset.
        clock: u64,
    }
);
