/*
 * A card: a 68332's firmware on Unicorn's 68k CPU, with the module at $FFFC00. A part program comes in on RXD at 9,600 baud, as in the other
 * examples; what the card sends on TXD and through the queue is printed, with the first interrupt of each vector.
 *
 * Each instruction counts as so many system clocks. The module is called at a bus access, and where its pins, its request or RXD change,
 * which qsm_until_change tells in advance; in STOP the CPU sleeps until then.
 *
 * Unicorn takes no interrupts: they are taken here, where a block of instructions begins, since within one it doesn't keep the condition
 * codes if it is stopped. Nor does it give them out: the CPU itself pushes and pops SR, by instructions in a page of the host's.
 */
#include <stdarg.h>
#include <stdio.h>
#include <stdlib.h>
#include <unicorn/unicorn.h>

#include "board.h"

enum { INSTRUCTION = 8, EXCEPTION = 32 }; /* system clocks of each */

/* The memory of card.ld; the host's page; and the module's, in which the module itself refuses all that isn't its own. */
enum { ROM = 0, RAM = 0x10000, SIZE = 0x10000, EXCEPTIONS = 0xFFE000, MODULES = 0xFFF000, PAGE = 0x1000, QSM = 0xC00 };

static const uint8_t exceptions[] = {
    0x40, 0xE7,             /* ENTER: move.w %sr,-(%sp) */
    0x4E, 0x72, 0x27, 0x00, /* RESET: stop #0x2700 */
    0x46, 0xDF,             /* LEAVE: move.w (%sp)+,%sr */
    0x4E, 0x74, 0x00, 0x02, /*        rtd #2, past the frame's format and vector */
};
enum { ENTER = EXCEPTIONS, RESET = EXCEPTIONS + 2, LEAVE = EXCEPTIONS + 6 };
enum { RTE = 0x100, SUPERVISOR = 0x2000 }; /* Unicorn's number for an RTE; the bit S of SR */

struct card {
    struct board board;
    uc_engine *cpu;
    uint32_t pc;                                  /* where it goes on */
    enum { STOPPED, INTERRUPTED, RETURNING } why; /* why it came to a stop */
    uint64_t now, awake;                          /* its clocks, and those not in STOP; the board may be behind */
    uint64_t rested;                              /* when it was last in STOP */
    uint64_t since[8], longest;                   /* when the handler of a level was entered; the clocks of the longest */
    unsigned taken[256];                          /* interrupts by vector */
};

static uint32_t reg(struct card *c, int name)
{
    uint32_t value = 0;
    uc_reg_read(c->cpu, name, &value);
    return value;
}

static void set(struct card *c, int name, uint32_t value)
{
    uc_reg_write(c->cpu, name, &value);
}

/* Says why the card can't go on. */
_Noreturn static void fail(struct card *c, const char *format, ...)
{
    va_list words;
    va_start(words, format);
    printf("  PC %06X: ", c->cpu ? (unsigned)reg(c, UC_M68K_REG_PC) : 0);
    vprintf(format, words);
    printf("\n");
    exit(EXIT_FAILURE);
}

static void check(struct card *c, uc_err error)
{
    if (error != UC_ERR_OK)
        fail(c, "%s", uc_strerror(error));
}

static uint32_t vector(struct card *c, unsigned number)
{
    uint8_t b[4] = {0};
    uc_mem_read(c->cpu, 4 * number, b, sizeof b);
    return (uint32_t)b[0] << 24 | (uint32_t)b[1] << 16 | (uint32_t)b[2] << 8 | b[3];
}

static unsigned mask(struct card *c)
{
    return reg(c, UC_M68K_REG_SR) >> 8 & 7;
}

/* A refused access is a bus error of the card. */
static uint32_t bus(struct card *c, const char *what, unsigned width, uint64_t place, struct qsm_answer next)
{
    if (next.refusal != QSM_ANSWERED)
        fail(c, "bus error, refusal %u: %s, width %u, at %06X", next.refusal, what, width, (unsigned)(MODULES + place));
    board_see(&c->board, next);
    return next.value;
}

static uint64_t on_read(uc_engine *cpu, uint64_t place, unsigned width, void *card)
{
    struct card *c = card;
    board_keep(&c->board, c->now);
    bool supervisor = reg(c, UC_M68K_REG_SR) & SUPERVISOR;
    return bus(c, "read", width, place, qsm_read(&c->board.qsm, supervisor, (uint8_t)width, (uint16_t)(place - QSM)));
}

static void on_write(uc_engine *cpu, uint64_t place, unsigned width, uint64_t value, void *card)
{
    struct card *c = card;
    board_keep(&c->board, c->now);
    bool supervisor = reg(c, UC_M68K_REG_SR) & SUPERVISOR;
    bus(c, "write", width, place, qsm_write(&c->board.qsm, supervisor, (uint8_t)width, (uint16_t)(place - QSM), (uint32_t)value));
}

/* A block of instructions begins. A request above the mask is taken here; level 7 counts as any other. */
static void on_block(uc_engine *cpu, uint64_t address, uint32_t size, void *card)
{
    struct card *c = card;
    if (address >= EXCEPTIONS)
        return;
    if (c->now - c->rested > CLOCK)
        fail(c, "no STOP within a second");
    if (c->now >= c->board.due)
        board_keep(&c->board, c->now);
    if (c->board.seen.level > mask(c)) {
        c->why = INTERRUPTED;
        c->pc = (uint32_t)address;
        uc_emu_stop(cpu);
    }
}

static void spend(struct card *c, unsigned clocks)
{
    c->now += clocks;
    c->awake += clocks;
}

static void on_instruction(uc_engine *cpu, uint64_t address, uint32_t size, void *card)
{
    struct card *c = card;
    if (address < EXCEPTIONS && c->why == STOPPED)
        spend(c, INSTRUCTION);
}

/* RTE, which Unicorn leaves to its host; no other exception is expected. */
static void on_exception(uc_engine *cpu, uint32_t number, void *card)
{
    struct card *c = card;
    if (number != RTE)
        fail(c, "exception %u", (unsigned)number);
    uint64_t clocks = c->now - c->since[mask(c)];
    if (clocks > c->longest)
        c->longest = clocks;
    c->why = RETURNING;
    c->pc = LEAVE;
    uc_emu_stop(cpu);
}

/* Takes the request: a frame of format 0 on the stack, the mask raised to its level, the handler from the vector table. */
static void interrupt(struct card *c)
{
    uint8_t level = c->board.seen.level, number = c->board.seen.vector;
    uint32_t pc = c->pc, sp = reg(c, UC_M68K_REG_A7) - 6;
    uint8_t frame[6] = {pc >> 24, pc >> 16 & 0xFF, pc >> 8 & 0xFF, pc & 0xFF, number >> 6, number << 2 & 0xFF};
    if (!(reg(c, UC_M68K_REG_SR) & SUPERVISOR))
        fail(c, "an interrupt in user mode");
    check(c, uc_mem_write(c->cpu, sp, frame, sizeof frame));
    set(c, UC_M68K_REG_A7, sp);
    check(c, uc_emu_start(c->cpu, ENTER, NEVER, 0, 0));
    set(c, UC_M68K_REG_SR, SUPERVISOR | (uint32_t)level << 8);
    c->pc = vector(c, number);
    spend(c, EXCEPTION);
    c->since[level] = c->now;
    if (!c->taken[number]++)
        printf("  first interrupt of level %u, vector %02X\n", level, number);
}

/* STOP: the clock goes to each change, until a request is above the mask. False, if none will ever be. */
static bool awoken(struct card *c)
{
    board_keep(&c->board, c->now);
    while (c->board.seen.level <= mask(c) && c->board.due != NEVER) {
        c->now = c->board.due;
        board_keep(&c->board, c->now);
    }
    c->rested = c->now;
    return c->board.seen.level > mask(c);
}

static void run(struct card *c)
{
    for (;;) {
        c->why = STOPPED;
        check(c, uc_emu_start(c->cpu, c->pc, NEVER, 0, 0));
        if (c->why == STOPPED) {
            c->pc = reg(c, UC_M68K_REG_PC);
            if (!awoken(c))
                break;
        }
        if (c->why != RETURNING)
            interrupt(c);
    }
    c->now += CHARACTER; /* the end of the last frame on TXD, which changes nothing more */
    board_keep(&c->board, c->now);
}

/* The firmware's image in ROM, and CPU and board as a reset leaves them. */
static void start(struct card *c, FILE *image, const char *text)
{
    static uint8_t rom[SIZE];
    uc_hook block, instruction, exception;
    board_start(&c->board, text);
    check(c, uc_open(UC_ARCH_M68K, UC_MODE_BIG_ENDIAN, &c->cpu));
    check(c, uc_ctl_set_cpu_model(c->cpu, UC_CPU_M68K_M68020)); /* there is no CPU32, which does less */
    check(c, uc_mem_map(c->cpu, ROM, SIZE, UC_PROT_READ | UC_PROT_EXEC));
    check(c, uc_mem_map(c->cpu, RAM, SIZE, UC_PROT_READ | UC_PROT_WRITE));
    check(c, uc_mem_map(c->cpu, EXCEPTIONS, PAGE, UC_PROT_READ | UC_PROT_EXEC));
    check(c, uc_mmio_map(c->cpu, MODULES, PAGE, on_read, c, on_write, c));
    check(c, uc_mem_write(c->cpu, ROM, rom, fread(rom, 1, sizeof rom, image)));
    check(c, uc_mem_write(c->cpu, EXCEPTIONS, exceptions, sizeof exceptions));
    check(c, uc_hook_add(c->cpu, &block, UC_HOOK_BLOCK, (void *)on_block, c, 1, 0));
    check(c, uc_hook_add(c->cpu, &instruction, UC_HOOK_CODE, (void *)on_instruction, c, 1, 0));
    check(c, uc_hook_add(c->cpu, &exception, UC_HOOK_INTR, (void *)on_exception, c, 1, 0));
    set(c, UC_M68K_REG_SR, 0x2700);
    check(c, uc_emu_start(c->cpu, RESET, NEVER, 0, 0)); /* changes to the supervisor's stack */
    set(c, UC_M68K_REG_A7, vector(c, 0));
    c->pc = vector(c, 1);
}

int main(int count, char **words)
{
    static struct card c;
    static char text[65536];
    FILE *image = count > 1 ? fopen(words[1], "rb") : NULL, *file = count > 2 ? fopen(words[2], "rb") : NULL;
    if (file)
        text[fread(text, 1, sizeof text - 1, file)] = '\0';
    if (!image || (count > 2 && (!file || fgetc(file) != EOF))) {
        fprintf(stderr, "usage: card IMAGE [PROGRAM]; a program has at most %zu bytes\n", sizeof text - 1);
        return EXIT_FAILURE;
    }
    start(&c, image, file ? text : program);
    run(&c);
    unsigned times = (unsigned)(c.longest / CHARACTER);
    printf("  %u characters came, %u lost; ", qsm_taken(&c.board.qsm), qsm_lost(&c.board.qsm));
    printf("the longest handler took %u to %u character times\n", times, times + 1);
    fflush(stdout);
    for (unsigned n = 0; n < 256; n++)
        if (c.taken[n])
            fprintf(stderr, "  vector %02X: %u interrupts\n", n, c.taken[n]);
    fprintf(stderr, "  %u ms, awake for %u %%\n", (unsigned)(c.now * 1000 / CLOCK), (unsigned)(c.awake * 100 / c.now));
    uc_close(c.cpu);
}
