//! The layout that `include/qsm.h` asserts, asserted of the declarations in Rust.

use crate::state::*;
use crate::*;
use std::mem::{align_of, offset_of, size_of};

/// Alignment and size of a struct, then the place of each field.
macro_rules! layout {
    ($type:ident, $align:literal, $size:literal; $($field:ident $place:literal),* $(,)?) => {
        const _: () = assert!(align_of::<$type>() == $align && size_of::<$type>() == $size);
        $(const _: () = assert!(offset_of!($type, $field) == $place);)*
    };
}

layout!(Answer, 8, 24; refusal 0, value 4, levels 8, mask 9, level 10, vector 11, clock 16);
layout!(Flags, 2, 2; bits 0);
layout!(Status, 2, 4; flags 0, seen 2);
layout!(Framer, 2, 10; framing 0, starting 1, left 2, rt 3, first 4, second 5, noise 6, moved 7, shift 8);
layout!(Receiver, 2, 20;
    framer 0, scdr 10, noise 12, since 13, last1 14, last2 15, last3 16, idle 17, asleep 18,
);
layout!(Transmitter, 2, 6; preamble 0, left 1, shift 2, scdr 4);
layout!(Account, 4, 8; taken 0, lost 4);
layout!(Sci, 4, 44;
    sccr0 0, sccr1 2, prescaler 4, status 6, receiver 10, transmitter 30, account 36,
);
layout!(Registers, 2, 8; spcr3 0, spcr0 2, spcr1 4, spcr2 6);
layout!(SpsrFlags, 1, 3; spif 0, modf 1, halta 2);
layout!(Spsr, 1, 7; flags 0, seen 3, cptqp 6);
layout!(Ram, 2, 80; receive 0, transmit 32, commands 64);
layout!(Next, 2, 4; working 0, pointer 2, pending 3);
layout!(Entry, 2, 14;
    word 0, command 2, playing 3, delaying 4, halted 5, left 6, edges 8, mosi 9, collected 10,
    selecting 12,
);
layout!(Qspi, 2, 114; registers 0, spsr 8, ram 16, next 96, entry 100);
layout!(Module, 8, 176;
    sci 0, qspi 44, qsmcr 158, qilr 160, qivr 161, portqs 162, pqspar 163, ddrqs 164, inputs 165,
    clock 168,
);
layout!(Played, 8, 200; state 0, read 176, written 184, stop 192);
layout!(Compared, 8, 32; count 0, refusal 8, second 9, start 16, length 24);
layout!(Indexed, 8, 40; marks 0, records 8, place 16, resets 24, stop 32, refusal 33);
layout!(Found, 8, 32; place 0, resets 8, walked 16, refusal 24);
layout!(Judgement, 8, 16; number 0, field 8, stop 9);
layout!(Edition, 2, 10; number 0, sccr0 2, sccr1 4, spcr0 6, spcr1 8);
layout!(Changed, 8, 16; used 0, refusal 8);
layout!(Given, 2, 12; edition 0, refusal 10);
layout!(SetPoints, 2, 66; count 0, selects 1, bits 17, words 34);
layout!(Plan, 8, 72;
    clock 0, spcr0 8, spcr1 10, spcr2 12, count 14, first 15, last 16, commands 17, words 34,
);
layout!(Planned, 8, 80; plan 0, refusal 72);
layout!(Put, 4, 8; value 0, offset 4, width 6);
layout!(Line, 8, 144; number 0, cause 8, count 9, characters 10);
layout!(NoiseSum, 8, 16; total 0, worst 8);
layout!(NoiseSums, 8, 32; line 0, last 16);
layout!(Lines, 8, 368; at 0, left 8, since 12, pins 14, rxd 15, line 16, noise 160, device 192);
layout!(Told, 8, 384; state 0, number 368, kind 376, length 377, cause 378, refusal 379);
layout!(Drivers, 8, 184; qsm 0, split 176, holder 177);
