/*
 * The card's firmware, for a 68332. A part program comes in on RXD and is echoed on TXD; at the end of a line its set-points go to the axis
 * converters through the queue. All of it runs in two interrupt handlers. A line that lost a character is reported and moves nothing.
 *
 * Built with -DBUSY, it computes a far set-point in a loop, within the handler, for longer than two character times.
 */
#include <stdbool.h>
#include <stdint.h>

#define BYTE(offset) (*(volatile uint8_t *)(0xFFFC00 + (offset)))
#define WORD(offset) (*(volatile uint16_t *)(0xFFFC00 + (offset)))

#define QSMCR WORD(0x00)
#define QILR BYTE(0x04)
#define QIVR BYTE(0x05)
#define SCCR0 WORD(0x08)
#define SCCR1 WORD(0x0A)
#define SCSR WORD(0x0C)
#define SCDR WORD(0x0E)
#define PORTQS BYTE(0x15)
#define PQSPAR BYTE(0x16)
#define DDRQS BYTE(0x17)
#define SPCR0 WORD(0x18)
#define SPCR1 WORD(0x1A)
#define SPCR2 WORD(0x1C)
#define SPSR BYTE(0x1F)
#define TRANSMIT(entry) WORD(0x120 + 2 * (entry))
#define COMMAND(entry) BYTE(0x140 + (entry))

enum { SUPV = 0x0080, IARB = 14 };                                                   /* QSMCR */
enum { TIE = 0x0080, RIE = 0x0020, TE = 0x0008, RE = 0x0004 };                       /* SCCR1 */
enum { TDRE = 0x0100, RDRF = 0x0040, OR = 0x0008, NF = 0x0004, FE = 0x0002 };        /* SCSR */
enum { PCS2 = 0x20, PCS1 = 0x10, PCS0 = 0x08, SCK = 0x04, MOSI = 0x02 };             /* PORTQS, PQSPAR, DDRQS */
enum { MSTR = 0x8000, SPE = 0x8000, SPIFIE = 0x8000, ENDQP = 0x0100, BITSE = 0x40 }; /* SPCR0, SPCR1, SPCR2, command */

enum { SERIAL_LEVEL = 4, QUEUE_LEVEL = 5, VECTOR = 0x40 }; /* the queue's vector is the odd one, 41 */
enum { SCBR = 55, SPBR = 8 };                              /* of 16.78 MHz: 9,533 baud, and a shift clock of 1 MHz */
enum { NUMBER = 0x8000, MOST = 32767 };                    /* beside the flags in `damage`: an axis has none, or one above 327.67 */

/* Characters to send: echo and reports. */
static char ring[256];
static uint8_t head, tail;

/* The line so far, and the word in it: a letter and a number, in hundredths. */
static unsigned line;
static uint16_t damage; /* OR, NF, FE, NUMBER */
static char letter;
static int32_t number, unit; /* -1 before the first digit; 100 up to the point, then the value of one in the next digit */
static bool negative;
static uint16_t points[3]; /* X, Y, Z */
static uint8_t asked;      /* bit 0 to 2: the line has one */

static volatile bool moving; /* the queue runs; its handler says when it doesn't */

static void put(char character)
{
    if ((uint8_t)(head + 1) == tail)
        return; /* full */
    ring[head++] = character;
    SCCR1 |= TIE;
}

static void say(const char *text)
{
    while (*text)
        put(*text++);
}

static void say_number(unsigned n)
{
    if (n > 9)
        say_number(n / 10);
    put('0' + n % 10);
}

/* The screws of this mill are worn beyond 105 mm: 0.01 mm too long in each 2.5 mm. */
static uint16_t set_point(int32_t hundredths)
{
    enum { WORN = 10500, EACH = 250 };
    int32_t error = 0;
#ifdef BUSY
    int32_t part = 0;
    for (int32_t at = WORN; at < hundredths; at++)
        if (++part == EACH) {
            part = 0;
            error++;
        }
#else
    if (hundredths > WORN)
        error = (hundredths - WORN) / EACH;
#endif
    return (uint16_t)(hundredths - error);
}

static void end_word(void)
{
    unsigned axis = letter - 'X';
    if (axis < 3 && (number < 0 || number > MOST))
        damage |= NUMBER;
    else if (axis < 3) {
        points[axis] = set_point(negative ? -number : number);
        asked |= 1 << axis;
    }
    letter = 0;
}

/* The entries of a line: one for each axis, 16 bits, its own chip select low. */
static void move(void)
{
    static const uint8_t selects[3] = {0xE, 0xD, 0xB};
    unsigned entries = 0;
    for (unsigned axis = 0; axis < 3; axis++)
        if (asked >> axis & 1) {
            TRANSMIT(entries) = points[axis];
            COMMAND(entries) = BITSE | selects[axis];
            entries++;
        }
    if (entries) {
        moving = true;
        SPCR2 = SPIFIE | ENDQP * (entries - 1);
        SPCR1 |= SPE;
    }
}

static void end_line(void)
{
    line++;
    if (damage || moving) {
        say("line ");
        say_number(line);
        say(" dropped: ");
        say(damage & OR ? "OR\n" : damage & NUMBER ? "number\n" : damage ? "NF or FE\n" : "moving\n");
    } else
        move();
    damage = asked = 0;
}

static void take(char character)
{
    if ((uint8_t)(head - tail) < 192) /* the echo gives way to reports */
        put(character);
    if (character >= 'A' && character <= 'Z') {
        end_word(); /* in G01X112.5Y40 too */
        letter = character;
        number = -1;
        unit = 100;
        negative = false;
    } else if (character >= '0' && character <= '9') {
        if (number < 0)
            number = 0;
        if (number <= MOST)
            number = (unit == 100 ? number * 10 : number) + (character - '0') * unit;
        if (unit < 100)
            unit /= 10;
    } else if (character == '.')
        unit = 10;
    else if (character == '-')
        negative = true;
    else
        end_word();
    if (character == '\n')
        end_line();
}

/* Status, then data, which makes the flags fall that the status has shown. OR tells of a character lost after the one in SCDR. */
__attribute__((interrupt_handler)) void serial(void)
{
    uint16_t status = SCSR;
    if (status & (RDRF | OR)) {
        char character = (char)SCDR;
        damage |= status & (NF | FE);
        if (status & RDRF)
            take(character);
        damage |= status & OR;
    }
    if (status & TDRE) {
        if (head != tail)
            SCDR = (uint8_t)ring[tail++];
        else
            SCCR1 &= ~TIE;
    }
}

/* SPIF falls when it was read and is written zero. */
__attribute__((interrupt_handler)) void queue(void)
{
    (void)SPSR;
    SPSR = 0;
    moving = false;
}

int main(void)
{
    QSMCR = SUPV | IARB;
    QILR = QUEUE_LEVEL << 3 | SERIAL_LEVEL;
    QIVR = VECTOR;
    PORTQS = PCS2 | PCS1 | PCS0; /* no converter is selected at rest */
    PQSPAR = PCS2 | PCS1 | PCS0 | MOSI;
    DDRQS = PCS2 | PCS1 | PCS0 | SCK | MOSI;
    SPCR0 = MSTR | SPBR; /* BITS 0: 16; CPOL 0, CPHA 0 */
    SCCR0 = SCBR;
    SCCR1 = RIE | TE | RE;
    for (;;)
        __asm__ volatile("stop #0x2000"); /* sleeps until an interrupt of any level */
}
