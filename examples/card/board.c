#include "board.h"

#include <stdio.h>

/* The sender: ten bits at rest, then a start bit, eight data bits and a stop bit for each character. A line is printed when it is sent. */
static void next_bit(struct board *b)
{
    uint64_t bit = ++b->sent;
    const char *p = bit < 10 ? "\xFF" : b->text + bit / 10 - 1;
    b->rxd = !*p || bit < 10 || (0x200 | (uint8_t)*p << 1) >> bit % 10 & 1;
    b->edge = *p ? (bit + 1) * CLOCK / BAUD : NEVER;
    if (*p == '\n' && bit % 10 == 9) {
        const char *start = p;
        while (start > b->text && start[-1] != '\n')
            start--;
        printf("  RXD %.*s\n", (int)(p - start), start);
    }
}

/* TXD up to an answer, sampled in the middle of its bits: eight of data and the stop bit. */
static void hear(struct board *b, const struct qsm_answer *next)
{
    bool before = b->seen.levels & QSM_TXD, after = next->levels & QSM_TXD;
    for (; b->bits && b->sample < next->clock; b->sample += BIT) {
        b->frame = b->frame >> 1 | (unsigned)before << 8;
        if (--b->bits)
            continue;
        if ((char)b->frame == '\n') {
            printf("  TXD %.*s\n", (int)b->length, b->line);
            b->length = 0;
        } else if (b->length < sizeof b->line)
            b->line[b->length++] = (char)b->frame;
    }
    if (!b->bits && before && !after) {
        b->bits = 9;
        b->sample = next->clock + BIT + BIT / 2;
    }
}

/* The converters of X, Y and Z, at PCS0 to PCS2: they shift MOSI in when SCK rises, and take the word when their select rises. */
static void convert(struct board *b, const struct qsm_answer *next)
{
    if (~b->seen.levels & next->levels & QSM_SCK)
        b->word = (b->word << 1 | !!(next->levels & QSM_MOSI)) & 0xFFFF;
    for (int axis = 0; axis < 3; axis++)
        if (b->seen.mask & ~b->seen.levels & next->levels & QSM_PCS0 << axis)
            printf("  %c = %04X\n", 'X' + axis, b->word);
}

void board_see(struct board *b, struct qsm_answer next)
{
    hear(b, &next);
    convert(b, &next);
    b->seen = next;
    uint64_t sleep = qsm_until_change(b->qsm, 0xFF, b->rxd);
    b->due = sleep && next.clock + sleep < b->edge ? next.clock + sleep : b->edge;
}

void board_keep(struct board *b, uint64_t clock)
{
    while (b->seen.clock < clock) {
        uint64_t until = b->due < clock ? b->due : clock;
        struct qsm_answer next = qsm_hold(&b->qsm, 0xFF, b->rxd, (uint32_t)(until - b->seen.clock));
        if (until == b->edge)
            next_bit(b);
        board_see(b, next);
    }
}

void board_start(struct board *b, const char *text)
{
    *b = (struct board){.qsm = qsm_new(), .text = text, .rxd = true, .edge = CLOCK / BAUD};
    board_see(b, qsm_reset(&b->qsm));
}
