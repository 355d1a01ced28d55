/*
 * A card's firmware on the model. A part program comes in on RXD at 9,600 baud, and a polling loop reads status, then data. With a fast
 * poll every line arrives. With a slow one a character finds the data register full: it is lost, and the overrun flag says so.
 */
#include <stdio.h>
#include <stdlib.h>

#include "feed.h"
#include "qsm.h"

struct card {
    struct qsm qsm;
    uint64_t now;                   /* system clocks, as the module counts them */
    uint64_t next_poll, poll_every; /* likewise */
    uint64_t sent;                  /* bits, by the sender */
    char line[80];                  /* as much as has come of a line */
    size_t length;
    bool damaged; /* an overrun was seen in it */
    unsigned overruns;
};

/* What a call gives; none of these can be refused. */
static uint32_t value(struct qsm_answer a)
{
    if (a.refusal != QSM_ANSWERED) {
        fprintf(stderr, "refusal %u\n", a.refusal);
        exit(EXIT_FAILURE);
    }
    return a.value;
}

static void take(struct card *c, char character)
{
    if (character != '\n') {
        if (c->length < sizeof c->line - 1)
            c->line[c->length++] = character;
        return;
    }
    c->line[c->length] = '\0';
    printf("  %s%s\n", c->line, c->damaged ? "   <- overrun: a character is missing" : "");
    c->length = 0;
    c->damaged = false;
}

/* The firmware: status, then data. The data read clears the flags that the status read has shown. */
static void poll_once(struct card *c)
{
    uint32_t status = value(qsm_read(&c->qsm, true, 2, QSM_SCSR));
    if (!(status & (QSM_RDRF | QSM_OR)))
        return;
    uint32_t data = value(qsm_read(&c->qsm, true, 2, QSM_SCDR));
    if (status & QSM_RDRF)
        take(c, (char)data);
    if (status & QSM_OR) {
        c->damaged = true;
        c->overruns++;
    }
}

/* RXD keeps a level until a time; the firmware polls on the way. */
static void keep(struct card *c, bool level, uint64_t until)
{
    while (c->now < until) {
        uint64_t stop = c->next_poll < until ? c->next_poll : until;
        struct qsm_answer a = qsm_hold(&c->qsm, 0xFF, level, (uint32_t)(stop - c->now));
        value(a);
        c->now = a.clock;
        if (c->now == c->next_poll) {
            poll_once(c);
            c->next_poll += c->poll_every;
        }
    }
}

/* The sender: so many bits, lowest first. */
static void send_bits(struct card *c, unsigned bits, int count)
{
    for (int i = 0; i < count; i++)
        keep(c, bits >> i & 1, ++c->sent * CLOCK / BAUD);
}

static void run(unsigned microseconds)
{
    uint64_t poll_every = (uint64_t)CLOCK * microseconds / 1000000;
    struct card c = {.qsm = qsm_new(), .next_poll = poll_every, .poll_every = poll_every};
    printf("A poll every %u us:\n", microseconds);
    value(qsm_write(&c.qsm, true, 2, QSM_SCCR0, SCBR));
    value(qsm_write(&c.qsm, true, 2, QSM_SCCR1, QSM_RE));
    send_bits(&c, 0x3FF, 10); /* a line at rest */
    for (const char *p = program; *p; p++)
        send_bits(&c, 0x200 | (unsigned)*p << 1, 10); /* start bit 0, eight data bits, stop bit 1 */
    send_bits(&c, 0xFFFFF, 20); /* time for the last poll */
    printf("  overruns seen: %u\n", c.overruns);
}

/* A character takes 1,042 us. */
int main(void)
{
    run(500);
    run(1064);
}
