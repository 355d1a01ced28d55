/* What both examples send: a part program at 9,600 baud. */
#ifndef FEED_H
#define FEED_H

/* The receiver's rate is CLOCK / (32 * SCBR), 9,533 baud: 0.7 % below the sender's, near enough for a frame. */
enum { CLOCK = 16777216, BAUD = 9600, SCBR = 55 };

static const char program[] = "N10 G00 X0 Y0\n"
                              "N20 G01 X98.25 F200\n"
                              "N30 G01 X112.5 Y40\n"
                              "N40 G00 Z25\n"
                              "N50 M30\n";

#endif
