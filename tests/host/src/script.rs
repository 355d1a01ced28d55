//! The events of a round: one half set up and used, or both, or accesses of every kind.

use crate::event::Event;
use crate::line::Line;
use host::random::Random;
use crate::{queue, serial, wild};
use std::collections::VecDeque;

/// How many events in a hundred are the serial half's, the queue half's, and wild.
const MIXES: [(u32, u32); 5] = [(98, 0), (0, 98), (49, 49), (30, 30), (2, 2)];

pub struct Script {
    pub random: Random,
    mix: (u32, u32),
    planned: VecDeque<Event>,
    line: Line,
    pins: u8,
}

impl Script {
    pub fn new(seed: u64) -> Self {
        let mut random = Random::new(seed);
        let line = Line::new(&mut random, 1, false);
        Self {
            random,
            mix: MIXES[0],
            planned: VecDeque::new(),
            line,
            pins: 0xFF,
        }
    }

    /// A new round: perhaps a reset, then what is used is set up.
    pub fn begin(&mut self) {
        self.mix = self.random.pick(&MIXES);
        if self.random.percent(70) {
            self.planned.push_back(Event::Reset);
        }
        self.set_up();
    }

    fn set_up(&mut self) {
        let (events, line) = serial::set_up(&mut self.random);
        self.line = line;
        self.planned.extend(events);
        self.planned.extend(queue::set_up(&mut self.random));
    }

    pub fn next(&mut self) -> Event {
        if let Some(event) = self.planned.pop_front() {
            return event;
        }
        let (serial, queue) = self.mix;
        match self.random.below(100) {
            n if n < serial => serial::next(&mut self.random, &mut self.line, self.pins),
            n if n < serial + queue => queue::next(&mut self.random, &mut self.pins),
            _ => {
                if self.random.percent(4) {
                    self.set_up();
                }
                wild::next(&mut self.random)
            }
        }
    }
}
