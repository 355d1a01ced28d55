/*
 * Motorola's queued serial module (QSM), as a struct that a host keeps and changes: qsm_new, qsm_reset, qsm_hold, qsm_read and qsm_write. qsm_noise,
 * qsm_taken, qsm_lost and qsm_until_change look at it.
 *   - Traces and logs: qsm_play, qsm_compare, qsm_judge; an index of a trace, qsm_index_build and two more; the lines that came, qsm_lines_next.
 *   - Register settings by edition, qsm_editions_add and three more; plans of the queue, qsm_plan and three more.
 *   - A module that two drivers share, qsm_drivers_new and eight more.
 *
 * For C11 and C++11 on x86-64. The archive is made by `tools/build qsm_c`; link target/staticlib/libqsm_c.a.
 *
 *     struct qsm card = qsm_new();
 *     qsm_write(&card, true, 2, QSM_SCCR1, QSM_TE | QSM_RE);
 *     struct qsm_answer a = qsm_hold(&card, 0xFF, true, 1000);
 *
 * A CPU emulator calls qsm_read and qsm_write at each bus access, and qsm_hold for each stretch of time between them.
 *
 * Every call is answered, whatever the numbers in it: nothing else is asked of the caller than this.
 *   - A `struct qsm *` points to one valid module, which nobody else uses during the call. Valid is what qsm_new gave, a copy of it
 *     (assignment or memcpy: a saved state is a copy), and what these functions made of it. Never null.
 *   - A `struct qsm_drivers *` likewise, from qsm_drivers_new.
 *   - `trace` points to `length` bytes, `log` to `room` bytes, and the two do not overlap. Never null, also where there are 0 bytes.
 *   - `first` and `second` point to so many bytes and may overlap, `list` to `room` numbers that overlap neither. Never null either.
 *   - `marks` points to `room` numbers and `line` to `room` bytes, which don't overlap the trace. Never null either.
 *   - `buffer` points to `length` bytes, whatever they are; `used` may be any number. Never null either.
 *   - Every bool, in the calls and in the struct, is 0 or 1.
 * There are no hidden variables: different modules may be used by different threads at once.
 */
#ifndef QSM_H
#define QSM_H

#include <stdbool.h>
#include <stddef.h>
#include <stdint.h>

#ifdef __cplusplus
extern "C" {
#endif

/* Why an access was refused, or why a trace stopped. */
enum qsm_refusal {
    QSM_ANSWERED = 0,     /* not refused, or the trace's end */
    QSM_MISSHAPEN = 1,    /* width not 1, 2 or 4; odd offset with 2 or 4; written value too big for the width */
    QSM_UNMAPPED = 2,     /* a byte touched is not in the map; index: there is no such record */
    QSM_UNMODELLED = 3,   /* a write would set an unmodelled bit, BITS 1 to 7, or SPE with MSTR clear */
    QSM_GUARDED = 4,      /* a write would change a guarded field while its half is on */
    QSM_UNKNOWN_KIND = 5, /* trace: a record of unknown kind; compare: not every answer begins with the same one of 10 and 11 (hex);
                             editions: the buffer has one, or one that would have been refused */
    QSM_CUT_RECORD = 6,   /* trace: a record cut by the end; compare: a length that is no multiple of an answer's, 10 or 18 bytes;
                             editions: the used length cuts a record or passes the buffer's end */
    QSM_NO_ROOM = 7,      /* trace: fewer than 18 bytes left of the log; compare: the list is too short; editions: 64 records, or no room;
                             index: the list is too short, or the trace has more than 4,096 marks; lines: a buffer of fewer than 128 bytes */
    QSM_NO_EDITION = 8,   /* editions: one to add that is not above the last, one to withdraw or to get that is not there */
    QSM_NOT_YOURS = 9,    /* two drivers: bytes that are not the driver's, a claim or a release that it can't have, a write that it may not
                             make; a first reset with no split from 1 to 15 */
    QSM_CLOCK_LIMIT = 10, /* a hold, also in a trace: the clocks since reset would pass 2^64 - 1 */
    QSM_NO_PLAN = 11      /* plan: there is none for these set-points in this window */
};

/* Offsets of the registers from the module's base. Words are big-endian. */
enum qsm_offset {
    QSM_QSMCR = 0x00, QSM_QILR = 0x04, QSM_QIVR = 0x05, /* QILR and QIVR are bytes */
    QSM_SCCR0 = 0x08, QSM_SCCR1 = 0x0A, QSM_SCSR = 0x0C, QSM_SCDR = 0x0E,
    QSM_PORTQS = 0x15, QSM_PQSPAR = 0x16, QSM_DDRQS = 0x17, /* bytes */
    QSM_SPCR0 = 0x18, QSM_SPCR1 = 0x1A, QSM_SPCR2 = 0x1C, QSM_SPCR3 = 0x1E, QSM_SPSR = 0x1F, /* the last two are bytes */
    QSM_RECEIVE = 0x100, QSM_TRANSMIT = 0x120, QSM_COMMANDS = 0x140 /* 16 words, 16 words, 16 bytes */
};

/* SCCR1: transmitter and receiver on. */
enum qsm_sccr1 { QSM_TE = 0x0008, QSM_RE = 0x0004 };

/* SCSR. A status read marks the flags it shows as seen; a data read or write then makes the seen ones fall. */
enum qsm_scsr {
    QSM_TDRE = 0x0100, /* transmit data register empty */
    QSM_TC = 0x0080,   /* transmission complete */
    QSM_RDRF = 0x0040, /* receive data register full */
    QSM_RAF = 0x0020,  /* receiver active */
    QSM_IDLE = 0x0010, /* idle line */
    QSM_OR = 0x0008,   /* overrun: a character, or more than one, was lost after the one in SCDR */
    QSM_NF = 0x0004,   /* noise */
    QSM_FE = 0x0002,   /* framing error */
    QSM_PF = 0x0001    /* parity error */
};

/* Pins, as bits of `pins`, `levels` and `mask`. */
enum qsm_pin {
    QSM_MISO = 0x01, QSM_MOSI = 0x02, QSM_SCK = 0x04, QSM_PCS0 = 0x08, QSM_PCS1 = 0x10, QSM_PCS2 = 0x20, QSM_PCS3 = 0x40, QSM_TXD = 0x80
};

/* The answer to a call: what it gives, and the module's pins and request after it. */
struct qsm_answer {
    uint8_t refusal; /* QSM_MISSHAPEN to QSM_GUARDED, QSM_CLOCK_LIMIT, and the module is as before; else QSM_ANSWERED */
    uint32_t value;  /* what a read gives; else 0 */
    uint8_t levels;  /* levels of the driven pins; 0 for the others */
    uint8_t mask;    /* which pins the module drives */
    uint8_t level;   /* level of the interrupt request, 1 to 7; 0 where there is none */
    uint8_t vector;  /* its vector, odd for the queue half, even for the serial half; 0 where there is none */
    uint64_t clock;  /* clocks since reset, of refused calls too */
};

/* The module's state, part by part. A host may look inside and need not. */

struct qsm_flags {
    uint16_t bits; /* as in SCSR */
};

struct qsm_status {
    struct qsm_flags flags;
    struct qsm_flags seen; /* those that a status read has shown */
};

struct qsm_framer {
    bool framing;  /* a frame is being received */
    bool starting; /* its start bit */
    uint8_t left;  /* data bits left, this one included; 0 in the stop bit */
    uint8_t rt;    /* last RT taken of this bit */
    bool first, second; /* samples of the vote */
    uint8_t noise; /* its noise figure so far */
    bool moved;    /* an adjustment has set RT1 of this bit */
    uint16_t shift;
};

struct qsm_receiver {
    struct qsm_framer framer;
    uint16_t scdr; /* SCDR as it is read */
    uint8_t noise; /* the noise figure of the word in it */
    bool since;    /* a frame has entered SCDR since the idle count was last full */
    bool last1, last2, last3; /* the last samples, latest first */
    uint8_t idle; /* samples of one in a row */
    bool asleep;  /* RWU */
};

struct qsm_transmitter {
    bool preamble;  /* one is queued */
    uint8_t left;   /* samples left of what runs */
    uint16_t shift; /* its bits */
    uint16_t scdr;  /* SCDR as it is written */
};

struct qsm_account {
    uint32_t taken; /* frames taken since the last reset, the lost ones with them */
    uint32_t lost;
};

struct qsm_sci {
    uint16_t sccr0;
    uint16_t sccr1;     /* without RWU */
    uint16_t prescaler; /* clocks since the last sample */
    struct qsm_status status;
    struct qsm_receiver receiver;
    struct qsm_transmitter transmitter;
    struct qsm_account account;
};

struct qsm_registers {
    uint8_t spcr3;
    uint16_t spcr0, spcr1, spcr2;
};

struct qsm_spsr_flags {
    bool spif, modf, halta;
};

struct qsm_spsr {
    struct qsm_spsr_flags flags;
    struct qsm_spsr_flags seen; /* those that a read of SPSR has shown */
    uint8_t cptqp;
};

struct qsm_ram {
    uint16_t receive[16];
    uint16_t transmit[16];
    uint8_t commands[16];
};

struct qsm_next {
    uint16_t working; /* working copy of SPCR2 */
    uint8_t pointer;
    bool pending; /* NEWQP was written since the last entry began */
};

struct qsm_entry {
    uint16_t word; /* transmit word and command that the entry took */
    uint8_t command;
    bool playing, delaying, halted;
    uint16_t left; /* clocks to the next edge, or to the end of the delay */
    uint8_t edges; /* fallen */
    bool mosi;
    uint16_t collected; /* bits read on MISO */
    bool selecting;     /* the chip selects show the command's value */
};

struct qsm_qspi {
    struct qsm_registers registers;
    struct qsm_spsr spsr;
    struct qsm_ram ram;
    struct qsm_next next;   /* what comes next */
    struct qsm_entry entry; /* the entry under way */
};

struct qsm {
    struct qsm_sci sci;
    struct qsm_qspi qspi;
    uint16_t qsmcr;
    uint8_t qilr, qivr, portqs, pqspar, ddrqs;
    uint8_t inputs; /* pin levels of the last hold */
    uint64_t clock; /* clocks since reset */
};

struct qsm_played {
    struct qsm state; /* the module after the records answered */
    size_t read;      /* bytes of those records */
    size_t written;   /* bytes of their answers */
    uint8_t stop;     /* QSM_UNKNOWN_KIND to QSM_NO_ROOM, QSM_CLOCK_LIMIT; QSM_ANSWERED at the end of the trace */
};

/* Fields of an answer in a log, as qsm_compare adds them up. */
enum qsm_field {
    QSM_FIELD_KIND = 1, QSM_FIELD_REFUSAL = 2, QSM_FIELD_VALUE = 4, QSM_FIELD_LEVELS = 8, QSM_FIELD_MASK = 16, QSM_FIELD_LEVEL = 32,
    QSM_FIELD_VECTOR = 64, QSM_FIELD_CLOCK = 128
};

struct qsm_compared {
    uint64_t count;  /* answers that differ: twice as many numbers are in the list */
    uint8_t refusal; /* QSM_UNKNOWN_KIND, QSM_CUT_RECORD, QSM_NO_ROOM; else QSM_ANSWERED */
    bool second;     /* the surplus is the second log's; the first's where neither is longer */
    size_t start;    /* its place in that log: the common end */
    size_t length;   /* its bytes */
};

/* The most records that a buffer of editions has; the bytes of one that adds an edition and of one that withdraws it. */
enum qsm_editions { QSM_EDITIONS_RECORDS = 64, QSM_EDITIONS_ADDED = 11, QSM_EDITIONS_WITHDRAWN = 3 };

/* An edition, and the register settings that it has. */
struct qsm_edition {
    uint16_t number; /* 1 to 65,535 */
    uint16_t sccr0, sccr1, spcr0, spcr1;
};

struct qsm_editions_changed {
    size_t used;     /* the used length after the call: the same where it is refused */
    uint8_t refusal; /* QSM_UNMODELLED, QSM_UNKNOWN_KIND to QSM_NO_EDITION; else QSM_ANSWERED */
};

struct qsm_editions_given {
    struct qsm_edition edition; /* as it was added; zeros where the call is refused */
    uint8_t refusal;            /* QSM_UNKNOWN_KIND, QSM_CUT_RECORD, QSM_NO_EDITION; else QSM_ANSWERED */
};

/* Set-points for the queue in order, of which the first `count` are meant, from 1 to 16. */
struct qsm_set_points {
    uint8_t count;
    uint8_t selects[16]; /* chip select, 0 to 15 */
    uint8_t bits[16];    /* 8 to 16 */
    uint16_t words[16];  /* not too big for its bits */
};

/* A plan: entries from the first pointer on, of which the first `count` are meant, registers, and the clock of the last edge. */
struct qsm_queue_plan {
    uint64_t clock;
    uint16_t spcr0, spcr1;
    uint16_t spcr2; /* its NEWQP and ENDQP don't count: loading puts `first` and `last` in */
    uint8_t count;
    uint8_t first, last;
    uint8_t commands[16];
    uint16_t words[16];
};

struct qsm_planned {
    struct qsm_queue_plan plan; /* zeros where it is refused */
    uint8_t refusal;            /* QSM_NO_PLAN; else QSM_ANSWERED */
};

/* A write for the host to make as supervisor. */
struct qsm_plan_put {
    uint32_t value;
    uint16_t offset;
    uint8_t width; /* 0: none */
};

/*
 * The version of `struct qsm` and of `struct qsm_lines` that the archive has, which is QSM_VERSION of its header. A struct that was saved belongs to
 * one version: keep the number with it, and don't hand it to another's calls. 2 came with the noise figure and moving points, 3 with the clocks
 * since reset, 4 with the account of frames, 5 with the noise figures of lines.
 */
#define QSM_VERSION 5
uint32_t qsm_version(void);

/* A module fresh from reset. */
struct qsm qsm_new(void);

/* Reset. */
struct qsm_answer qsm_reset(struct qsm *m);

/*
 * Time passes: RXD has its level and the input pins have theirs for 0 to 4,294,967,295 system clocks. `pins` counts only for pins that are
 * inputs, and stays, for reads of PORTQS, until the next hold or reset. QSM_CLOCK_LIMIT, where the clocks since reset would pass 2^64 - 1.
 */
struct qsm_answer qsm_hold(struct qsm *m, uint8_t pins, bool rxd, uint32_t clocks);

/*
 * A bus access of 1, 2 or 4 bytes, as supervisor or as user, which takes no clock. A byte or word is the low end of the value. A long is
 * two words in address order; where one half of a write is refused, neither acts. A user's access to QSMCR, QILR or QIVR, or to anything
 * while SUPV is set (as after a reset), reads 0 or writes nothing; that is no refusal.
 */
struct qsm_answer qsm_read(struct qsm *m, bool supervisor, uint8_t width, uint16_t offset);
struct qsm_answer qsm_write(struct qsm *m, bool supervisor, uint8_t width, uint16_t offset, uint32_t value);

/*
 * The noise figure of the word in SCDR, 0 after a reset: the samples that disagreed in its votes, and the ones at RT3, RT5 and RT7 to RT10 of
 * its start bit. It stays until the next word enters SCDR, also once the word is read; a lost character doesn't change it. The module is only
 * looked at.
 */
uint8_t qsm_noise(const struct qsm *m);

/*
 * How long a host can sleep: at these levels of the pins and of RXD, the least number of clocks after which an answer would show other
 * levels, another mask, level or vector than one now; 0 if they never will, however many holds at these levels follow. The module is a copy,
 * and stays as it is. The count has room for the clocks told; more than 4,294,967,295 of them take several holds.
 */
uint64_t qsm_until_change(struct qsm m, uint8_t pins, bool rxd);

/*
 * Plays the records of a trace from the state `m` on and writes their answers, 18 bytes each, to the front of the log. It stops before a
 * record that it can't answer: what was answered before stands, and the log's bytes past the answers are unchanged.
 */
struct qsm_played qsm_play(struct qsm m, const uint8_t *trace, size_t length, uint8_t *log, size_t room);

/*
 * Compares two logs of one kind: answers of 10 bytes that begin with 10 (hex), or of 18 that begin with 11 and end with the clock. The first
 * byte of the first log that is not empty says which. For each answer that differs the list gets two numbers, in order: the answer's, from 0,
 * and the sum of its differing fields. The list past them is as it was. What the longer log has past the shorter one's end is named by its
 * place. QSM_UNKNOWN_KIND, if an answer of either log, a cut last one too, begins with another byte; then QSM_CUT_RECORD, then QSM_NO_ROOM,
 * refuse: count 0, no surplus, and the list is as it was.
 */
struct qsm_compared qsm_compare(const uint8_t *first, size_t first_length, const uint8_t *second, size_t second_length,
                                uint64_t *list, size_t room);

/*
 * Register settings by edition, as records in a buffer of the host's, of which the first `used` bytes are in use: 0 at first, later what the
 * last change gave. An edition is added above all that were added before. Withdrawn, it is not given any more; its room stays in use.
 *
 * Refusals come in the order QSM_UNKNOWN_KIND, QSM_CUT_RECORD (both of the buffer), QSM_UNMODELLED (a module after a reset would refuse one of
 * SCCR0, SCCR1, SPCR0, SPCR1, written in this order), QSM_NO_EDITION, QSM_NO_ROOM. A refusal changes no byte of the buffer; a change writes
 * those of its record alone, behind the used length. A buffer that was made by these calls is never refused for itself.
 */
struct qsm_editions_changed qsm_editions_add(uint8_t *buffer, size_t length, size_t used, struct qsm_edition edition);
struct qsm_editions_changed qsm_editions_withdraw(uint8_t *buffer, size_t length, size_t used, uint16_t number);

/* The edition of a number, and the newest, which is the largest; only if they are not withdrawn. */
struct qsm_editions_given qsm_editions_get(const uint8_t *buffer, size_t length, size_t used, uint16_t number);
struct qsm_editions_given qsm_editions_newest(const uint8_t *buffer, size_t length, size_t used);

/*
 * The quickest plan that sends set-points within a window of system clocks, counted from the first entry's clock 1 to the last edge; or
 * QSM_NO_PLAN, where there is none at all. Counts of bits other than 8 must agree.
 */
struct qsm_planned qsm_plan(struct qsm_set_points points, uint64_t window);

/*
 * Whether a plan, whoever made it, carries these set-points within this window. One that is accepted, loaded with SPE and SPIF clear and
 * run with MOSI an assigned output and no mode fault, HALT, reset or write, sends the words and raises SPIF at exactly its clock.
 */
bool qsm_plan_accepts(struct qsm_set_points points, uint64_t window, struct qsm_queue_plan plan);

/* The writes that load a plan: how many, and each by its number from 0, in order; the last, of SPCR1, starts the queue. */
uint16_t qsm_plan_writes(struct qsm_queue_plan plan);
struct qsm_plan_put qsm_plan_write(struct qsm_queue_plan plan, uint16_t number);

/*
 * Lines gathered from a trace that is replayed with polling put in: on a module fresh from reset, status is read after every `period` clocks
 * (1 to 65,535) since the start or a reset, and data if RDRF or OR showed. Delivered words, their low 7 bits, make up lines that end with 0A.
 */
enum qsm_lines_kind { QSM_LINES_END = 0, QSM_LINES_LINE = 1, QSM_LINES_DROP = 2, QSM_LINES_STOP = 3, QSM_LINES_REFUSED = 4 };

/* The first cause to drop a line: a word with a framing error, a parity error or noise, a 129th character, an overrun. */
enum qsm_lines_cause {
    QSM_LINES_FE = 1, QSM_LINES_PF = 2, QSM_LINES_NF = 3, QSM_LINES_LENGTH = 4, QSM_LINES_OR = 5
};

/* The bytes that a line buffer needs. */
enum qsm_lines_room { QSM_LINES_ROOM = 128 };

struct qsm_line {
    uint64_t number; /* from 0 over all lines that ended */
    uint8_t cause;   /* to drop it, or 0 */
    uint8_t count;   /* characters so far */
    uint8_t characters[128];
};

/* The noise figures of a line's words, its newline's among them: the total, which stays at the largest number, and the worst. */
struct qsm_noise_sum {
    uint64_t total;
    uint8_t worst;
};

struct qsm_noise_sums {
    struct qsm_noise_sum line; /* the line being gathered */
    struct qsm_noise_sum last; /* the line that ended last: after a call, the one that it tells of */
};

/* Where a replay stands: a host keeps it from call to call, and need not look inside but for `noise.last`. */
struct qsm_lines {
    size_t at;            /* place in the trace, from its first byte */
    uint32_t left;        /* clocks left of the hold under way */
    uint16_t since;       /* clocks since the last poll */
    uint8_t pins;         /* levels of the hold under way */
    bool rxd;
    struct qsm_line line; /* the line being gathered */
    struct qsm_noise_sums noise;
    struct qsm device;
};

struct qsm_lines_told {
    struct qsm_lines state;
    uint64_t number; /* of a line or a drop */
    uint8_t kind;    /* QSM_LINES_END to QSM_LINES_REFUSED */
    uint8_t length;  /* characters of a line, at the start of the buffer */
    uint8_t cause;   /* of a drop */
    uint8_t refusal; /* of a stop: QSM_UNMODELLED for an access that touches SCSR or SCDR, QSM_UNKNOWN_KIND, QSM_CUT_RECORD, QSM_CLOCK_LIMIT;
                        of a refused call: QSM_MISSHAPEN for the period, QSM_NO_ROOM for the buffer */
};

/* At the start of a trace. */
struct qsm_lines qsm_lines_new(void);

/*
 * Goes on to the next line, drop, stop or end, from the state that the last call left. A line's characters are put at the start of the buffer;
 * all other bytes of it stay. At the end, or at a record cut by it, the state can go on with a trace that is longer; `at` counts from the
 * first byte given.
 */
struct qsm_lines_told qsm_lines_next(struct qsm_lines state, const uint8_t *trace, size_t length, uint32_t period, uint8_t *line, size_t room);

/*
 * A module whose queue two drivers share, the axis driver and the spindle driver. The host keeps the struct, resets and holds it and may access all of the
 * module; a driver's own accesses go through qsm_drivers_read and qsm_drivers_write, with `spindle` true for the spindle driver. The first reset fixes the
 * split, from 1 to 15: the axis driver owns entries 0 to split - 1, the spindle driver the rest to 15. Later resets keep it, whatever they name, and end a claim.
 *
 * A driver reaches its own entries' words and command bytes and, while it holds the claim, SPCR1 (changing SPE alone), SPCR2, SPCR3 and SPSR. What it writes
 * to SPCR2 needs both pointers in its range, NEWQP not above ENDQP, WRTO set if WREN is, and while SPE is set both bytes at once; to set SPE, SPCR2 must be so
 * already. Anything else is QSM_NOT_YOURS, after QSM_MISSHAPEN, QSM_UNMAPPED and privilege and before QSM_UNMODELLED, and changes nothing: so are a claim while
 * the other driver holds it, a release by one that doesn't hold it or with SPE set, and all that a driver does before the first reset.
 */
struct qsm_drivers {
    struct qsm qsm;
    uint8_t split;  /* the spindle driver's first entry; 0 before the first reset */
    uint8_t holder; /* who holds the claim: 1 the axis driver, 2 the spindle driver, 0 nobody */
};

struct qsm_drivers qsm_drivers_new(void);

/* The host's events. */
struct qsm_answer qsm_drivers_reset(struct qsm_drivers *d, uint8_t split);
struct qsm_answer qsm_drivers_hold(struct qsm_drivers *d, uint8_t pins, bool rxd, uint32_t clocks);
struct qsm_answer qsm_drivers_host_read(struct qsm_drivers *d, bool supervisor, uint8_t width, uint16_t offset);
struct qsm_answer qsm_drivers_host_write(struct qsm_drivers *d, bool supervisor, uint8_t width, uint16_t offset, uint32_t value);

/* A driver's. */
struct qsm_answer qsm_drivers_read(struct qsm_drivers *d, bool spindle, bool supervisor, uint8_t width, uint16_t offset);
struct qsm_answer qsm_drivers_write(struct qsm_drivers *d, bool spindle, bool supervisor, uint8_t width, uint16_t offset, uint32_t value);
struct qsm_answer qsm_drivers_claim(struct qsm_drivers *d, bool spindle);
struct qsm_answer qsm_drivers_release(struct qsm_drivers *d, bool spindle);

/* Marks of a trace: one for every so many records, at most so many of them, so many numbers each. */
enum qsm_index { QSM_INDEX_SPACING = 256, QSM_INDEX_MARKS = 4096, QSM_INDEX_NUMBERS = 2 };

struct qsm_indexed {
    size_t marks;     /* marks that the list holds now; refused: that it would have to hold */
    uint64_t records; /* records of the trace that are whole and of a known kind, up to a stop */
    uint64_t place;   /* where they end, in bytes */
    uint64_t resets;  /* resets among them */
    uint8_t stop;     /* QSM_UNKNOWN_KIND, QSM_CUT_RECORD; QSM_ANSWERED at the end of the trace */
    uint8_t refusal;  /* QSM_NO_ROOM; else QSM_ANSWERED */
};

struct qsm_found {
    uint64_t place;  /* where the record starts, in bytes; 0 where it is not there */
    uint64_t resets; /* resets before it, itself left out */
    uint64_t walked; /* records that were walked over to it: fewer than 256 from a mark of its own */
    uint8_t refusal; /* QSM_UNMAPPED where there is no such record; else QSM_ANSWERED */
};

/*
 * An index of a trace: for records 0, 256, 512 and so on, up to a stop, two numbers in the host's list, the place and the resets before it. It is
 * built, or extended after records were added at the end, where `count` marks of the trace's beginning stand in the list: then only new marks are
 * written. QSM_NO_ROOM leaves every number as it was. A record is found by marks of the trace or of a beginning of it; by others there is an
 * answer, of no meaning.
 */
struct qsm_indexed qsm_index_build(const uint8_t *trace, size_t length, uint64_t *marks, size_t room);
struct qsm_indexed qsm_index_extend(const uint8_t *trace, size_t length, uint64_t *marks, size_t room, size_t count);
struct qsm_found qsm_index_find(const uint8_t *trace, size_t length, const uint64_t *marks, size_t room, size_t count, uint64_t number);

/*
 * The account of characters since the last reset: frames taken, and those of them that were lost because a character waited in SCDR or OR was
 * set. A frame slept through is not taken. So taken is the characters read, plus one if RDRF is set, plus lost. A count stays at
 * 4,294,967,295. The module is only looked at.
 */
uint32_t qsm_taken(const struct qsm *m);
uint32_t qsm_lost(const struct qsm *m);

/*
 * Judges a vendor's log of a trace, beside a module after reset: accepted exactly if it is, byte for byte, what qsm_play writes into room
 * enough. Else the number, from 0, of the first answer that is wrong or missing, and the first field of it that differs; QSM_FIELD_KIND where
 * it is missing, cut or surplus. The trace is walked to its end or stop either way.
 */
struct qsm_judgement {
    uint64_t number; /* of the first wrong answer; 0 if accepted */
    uint8_t field;   /* one of enum qsm_field; 0 if accepted */
    uint8_t stop;    /* QSM_UNKNOWN_KIND, QSM_CUT_RECORD, QSM_CLOCK_LIMIT; QSM_ANSWERED at the end of the trace */
};

struct qsm_judgement qsm_judge(const uint8_t *trace, size_t trace_length, const uint8_t *log, size_t log_length);

#ifdef __cplusplus
}
#endif

/* The layout that the archive was built with: alignment and size of each struct; place and size of each field. */
#ifdef __cplusplus
#define QSM_IS(test) static_assert(test, #test)
#define QSM_STRUCT(type, align, size) QSM_IS(alignof(struct type) == align && sizeof(struct type) == size)
#else
#define QSM_IS(test) _Static_assert(test, #test)
#define QSM_STRUCT(type, align, size) QSM_IS(_Alignof(struct type) == align && sizeof(struct type) == size)
#endif
#define QSM_AT(type, field, place, size) QSM_IS(offsetof(struct type, field) == place && sizeof(((struct type *)0)->field) == size)
QSM_STRUCT(qsm_answer, 8, 24); QSM_AT(qsm_answer, refusal, 0, 1); QSM_AT(qsm_answer, value, 4, 4);
QSM_AT(qsm_answer, levels, 8, 1); QSM_AT(qsm_answer, mask, 9, 1); QSM_AT(qsm_answer, level, 10, 1);
QSM_AT(qsm_answer, vector, 11, 1); QSM_AT(qsm_answer, clock, 16, 8);
QSM_STRUCT(qsm_flags, 2, 2); QSM_AT(qsm_flags, bits, 0, 2);
QSM_STRUCT(qsm_status, 2, 4); QSM_AT(qsm_status, flags, 0, 2); QSM_AT(qsm_status, seen, 2, 2);
QSM_STRUCT(qsm_framer, 2, 10); QSM_AT(qsm_framer, framing, 0, 1); QSM_AT(qsm_framer, starting, 1, 1);
QSM_AT(qsm_framer, left, 2, 1); QSM_AT(qsm_framer, rt, 3, 1); QSM_AT(qsm_framer, first, 4, 1); QSM_AT(qsm_framer, second, 5, 1);
QSM_AT(qsm_framer, noise, 6, 1); QSM_AT(qsm_framer, moved, 7, 1); QSM_AT(qsm_framer, shift, 8, 2);
QSM_STRUCT(qsm_receiver, 2, 20); QSM_AT(qsm_receiver, framer, 0, 10); QSM_AT(qsm_receiver, scdr, 10, 2);
QSM_AT(qsm_receiver, noise, 12, 1); QSM_AT(qsm_receiver, since, 13, 1); QSM_AT(qsm_receiver, last1, 14, 1);
QSM_AT(qsm_receiver, last2, 15, 1); QSM_AT(qsm_receiver, last3, 16, 1); QSM_AT(qsm_receiver, idle, 17, 1);
QSM_AT(qsm_receiver, asleep, 18, 1);
QSM_STRUCT(qsm_transmitter, 2, 6); QSM_AT(qsm_transmitter, preamble, 0, 1); QSM_AT(qsm_transmitter, left, 1, 1);
QSM_AT(qsm_transmitter, shift, 2, 2); QSM_AT(qsm_transmitter, scdr, 4, 2);
QSM_STRUCT(qsm_account, 4, 8); QSM_AT(qsm_account, taken, 0, 4); QSM_AT(qsm_account, lost, 4, 4);
QSM_STRUCT(qsm_sci, 4, 44); QSM_AT(qsm_sci, sccr0, 0, 2); QSM_AT(qsm_sci, sccr1, 2, 2); QSM_AT(qsm_sci, prescaler, 4, 2);
QSM_AT(qsm_sci, status, 6, 4); QSM_AT(qsm_sci, receiver, 10, 20); QSM_AT(qsm_sci, transmitter, 30, 6);
QSM_AT(qsm_sci, account, 36, 8);
QSM_STRUCT(qsm_registers, 2, 8); QSM_AT(qsm_registers, spcr3, 0, 1); QSM_AT(qsm_registers, spcr0, 2, 2);
QSM_AT(qsm_registers, spcr1, 4, 2); QSM_AT(qsm_registers, spcr2, 6, 2);
QSM_STRUCT(qsm_spsr_flags, 1, 3); QSM_AT(qsm_spsr_flags, spif, 0, 1); QSM_AT(qsm_spsr_flags, modf, 1, 1);
QSM_AT(qsm_spsr_flags, halta, 2, 1);
QSM_STRUCT(qsm_spsr, 1, 7); QSM_AT(qsm_spsr, flags, 0, 3); QSM_AT(qsm_spsr, seen, 3, 3); QSM_AT(qsm_spsr, cptqp, 6, 1);
QSM_STRUCT(qsm_ram, 2, 80); QSM_AT(qsm_ram, receive, 0, 32); QSM_AT(qsm_ram, transmit, 32, 32); QSM_AT(qsm_ram, commands, 64, 16);
QSM_STRUCT(qsm_next, 2, 4); QSM_AT(qsm_next, working, 0, 2); QSM_AT(qsm_next, pointer, 2, 1); QSM_AT(qsm_next, pending, 3, 1);
QSM_STRUCT(qsm_entry, 2, 14); QSM_AT(qsm_entry, word, 0, 2); QSM_AT(qsm_entry, command, 2, 1); QSM_AT(qsm_entry, playing, 3, 1);
QSM_AT(qsm_entry, delaying, 4, 1); QSM_AT(qsm_entry, halted, 5, 1); QSM_AT(qsm_entry, left, 6, 2); QSM_AT(qsm_entry, edges, 8, 1);
QSM_AT(qsm_entry, mosi, 9, 1); QSM_AT(qsm_entry, collected, 10, 2); QSM_AT(qsm_entry, selecting, 12, 1);
QSM_STRUCT(qsm_qspi, 2, 114); QSM_AT(qsm_qspi, registers, 0, 8); QSM_AT(qsm_qspi, spsr, 8, 7); QSM_AT(qsm_qspi, ram, 16, 80);
QSM_AT(qsm_qspi, next, 96, 4); QSM_AT(qsm_qspi, entry, 100, 14);
QSM_STRUCT(qsm, 8, 176); QSM_AT(qsm, sci, 0, 44); QSM_AT(qsm, qspi, 44, 114); QSM_AT(qsm, qsmcr, 158, 2);
QSM_AT(qsm, qilr, 160, 1); QSM_AT(qsm, qivr, 161, 1); QSM_AT(qsm, portqs, 162, 1); QSM_AT(qsm, pqspar, 163, 1);
QSM_AT(qsm, ddrqs, 164, 1); QSM_AT(qsm, inputs, 165, 1); QSM_AT(qsm, clock, 168, 8);
QSM_STRUCT(qsm_played, 8, 200); QSM_AT(qsm_played, state, 0, 176); QSM_AT(qsm_played, read, 176, 8);
QSM_AT(qsm_played, written, 184, 8); QSM_AT(qsm_played, stop, 192, 1);
QSM_STRUCT(qsm_compared, 8, 32); QSM_AT(qsm_compared, count, 0, 8); QSM_AT(qsm_compared, refusal, 8, 1);
QSM_AT(qsm_compared, second, 9, 1); QSM_AT(qsm_compared, start, 16, 8); QSM_AT(qsm_compared, length, 24, 8);
QSM_STRUCT(qsm_judgement, 8, 16); QSM_AT(qsm_judgement, number, 0, 8); QSM_AT(qsm_judgement, field, 8, 1); QSM_AT(qsm_judgement, stop, 9, 1);
QSM_STRUCT(qsm_edition, 2, 10); QSM_AT(qsm_edition, number, 0, 2); QSM_AT(qsm_edition, sccr0, 2, 2); QSM_AT(qsm_edition, sccr1, 4, 2);
QSM_AT(qsm_edition, spcr0, 6, 2); QSM_AT(qsm_edition, spcr1, 8, 2);
QSM_STRUCT(qsm_editions_changed, 8, 16); QSM_AT(qsm_editions_changed, used, 0, 8); QSM_AT(qsm_editions_changed, refusal, 8, 1);
QSM_STRUCT(qsm_editions_given, 2, 12); QSM_AT(qsm_editions_given, edition, 0, 10); QSM_AT(qsm_editions_given, refusal, 10, 1);
QSM_STRUCT(qsm_set_points, 2, 66); QSM_AT(qsm_set_points, count, 0, 1); QSM_AT(qsm_set_points, selects, 1, 16);
QSM_AT(qsm_set_points, bits, 17, 16); QSM_AT(qsm_set_points, words, 34, 32);
QSM_STRUCT(qsm_queue_plan, 8, 72); QSM_AT(qsm_queue_plan, clock, 0, 8); QSM_AT(qsm_queue_plan, spcr0, 8, 2);
QSM_AT(qsm_queue_plan, spcr1, 10, 2); QSM_AT(qsm_queue_plan, spcr2, 12, 2); QSM_AT(qsm_queue_plan, count, 14, 1);
QSM_AT(qsm_queue_plan, first, 15, 1); QSM_AT(qsm_queue_plan, last, 16, 1); QSM_AT(qsm_queue_plan, commands, 17, 16);
QSM_AT(qsm_queue_plan, words, 34, 32);
QSM_STRUCT(qsm_planned, 8, 80); QSM_AT(qsm_planned, plan, 0, 72); QSM_AT(qsm_planned, refusal, 72, 1);
QSM_STRUCT(qsm_plan_put, 4, 8); QSM_AT(qsm_plan_put, value, 0, 4); QSM_AT(qsm_plan_put, offset, 4, 2);
QSM_AT(qsm_plan_put, width, 6, 1);
QSM_STRUCT(qsm_line, 8, 144); QSM_AT(qsm_line, number, 0, 8); QSM_AT(qsm_line, cause, 8, 1); QSM_AT(qsm_line, count, 9, 1);
QSM_AT(qsm_line, characters, 10, 128);
QSM_STRUCT(qsm_noise_sum, 8, 16); QSM_AT(qsm_noise_sum, total, 0, 8); QSM_AT(qsm_noise_sum, worst, 8, 1);
QSM_STRUCT(qsm_noise_sums, 8, 32); QSM_AT(qsm_noise_sums, line, 0, 16); QSM_AT(qsm_noise_sums, last, 16, 16);
QSM_STRUCT(qsm_lines, 8, 368); QSM_AT(qsm_lines, at, 0, 8); QSM_AT(qsm_lines, left, 8, 4); QSM_AT(qsm_lines, since, 12, 2);
QSM_AT(qsm_lines, pins, 14, 1); QSM_AT(qsm_lines, rxd, 15, 1); QSM_AT(qsm_lines, line, 16, 144); QSM_AT(qsm_lines, noise, 160, 32);
QSM_AT(qsm_lines, device, 192, 176);
QSM_STRUCT(qsm_lines_told, 8, 384); QSM_AT(qsm_lines_told, state, 0, 368); QSM_AT(qsm_lines_told, number, 368, 8);
QSM_AT(qsm_lines_told, kind, 376, 1); QSM_AT(qsm_lines_told, length, 377, 1); QSM_AT(qsm_lines_told, cause, 378, 1);
QSM_AT(qsm_lines_told, refusal, 379, 1);
QSM_STRUCT(qsm_drivers, 8, 184); QSM_AT(qsm_drivers, qsm, 0, 176); QSM_AT(qsm_drivers, split, 176, 1);
QSM_AT(qsm_drivers, holder, 177, 1);
QSM_STRUCT(qsm_indexed, 8, 40); QSM_AT(qsm_indexed, marks, 0, 8); QSM_AT(qsm_indexed, records, 8, 8); QSM_AT(qsm_indexed, place, 16, 8);
QSM_AT(qsm_indexed, resets, 24, 8); QSM_AT(qsm_indexed, stop, 32, 1); QSM_AT(qsm_indexed, refusal, 33, 1);
QSM_STRUCT(qsm_found, 8, 32); QSM_AT(qsm_found, place, 0, 8); QSM_AT(qsm_found, resets, 8, 8); QSM_AT(qsm_found, walked, 16, 8);
QSM_AT(qsm_found, refusal, 24, 1);
#undef QSM_AT
#undef QSM_STRUCT
#undef QSM_IS

#endif
