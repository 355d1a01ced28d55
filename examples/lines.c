/*
 * A recorded feed and two polls. A part program on RXD at 9,600 baud is recorded as a trace, and replayed with a poll put in after every so many
 * clocks. With a fast poll every line is handed over. With a slow one a character is lost, and its line is dropped, not handed over without it.
 */
#include <stdio.h>
#include <stdlib.h>

#include "feed.h"
#include "qsm.h"

static const char *const causes[] = {"", "framing error", "parity error", "noise", "too long", "overrun"};

struct recording {
    uint8_t trace[8192];
    size_t length;
    uint64_t bits; /* sent so far */
};

static void put(struct recording *r, const uint8_t *record, size_t length)
{
    if (sizeof r->trace - r->length < length)
        exit(EXIT_FAILURE);
    for (size_t i = 0; i < length; i++)
        r->trace[r->length++] = record[i];
}

/* A supervisor's write of a word: kind 04. */
static void write_word(struct recording *r, uint8_t offset, uint8_t value)
{
    const uint8_t record[] = {0x04, 0x82, 0, offset, 0, 0, 0, value};
    put(r, record, sizeof record);
}

/* So many bits, lowest first: a hold, kind 02, for each. */
static void send_bits(struct recording *r, unsigned bits, int count)
{
    for (int i = 0; i < count; i++) {
        uint64_t clocks = (r->bits + 1) * CLOCK / BAUD - r->bits * CLOCK / BAUD;
        const uint8_t record[] = {0x02, 0xFF, bits >> i & 1, (uint8_t)(clocks >> 8), (uint8_t)clocks};
        put(r, record, sizeof record);
        r->bits++;
    }
}

static void replay(const struct recording *r, unsigned microseconds)
{
    uint32_t period = (uint32_t)((uint64_t)CLOCK * microseconds / 1000000);
    struct qsm_lines state = qsm_lines_new();
    uint8_t line[QSM_LINES_ROOM];
    printf("A poll every %u us:\n", microseconds);
    for (;;) {
        struct qsm_lines_told told = qsm_lines_next(state, r->trace, r->length, period, line, sizeof line);
        unsigned long long number = told.number;
        state = told.state;
        if (told.kind == QSM_LINES_LINE)
            printf("  %llu: %.*s\n", number, told.length, (const char *)line);
        else if (told.kind == QSM_LINES_DROP)
            printf("  %llu: dropped, %s\n", number, causes[told.cause]);
        else
            break;
    }
}

/* A character takes 1,042 us. */
int main(void)
{
    static struct recording r;
    write_word(&r, QSM_SCCR0, SCBR);
    write_word(&r, QSM_SCCR1, QSM_RE);
    send_bits(&r, 0x3FF, 10); /* a line at rest */
    for (const char *p = program; *p; p++)
        send_bits(&r, 0x200 | (unsigned)*p << 1, 10); /* start bit 0, eight data bits, stop bit 1 */
    send_bits(&r, 0xFFFFF, 20); /* time for the last poll */
    replay(&r, 500);
    replay(&r, 1064);
}
