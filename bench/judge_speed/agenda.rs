//! The events that are due.

use crate::program::{Program, SHUTDOWN, STARTUP, Tag};
use std::cmp::Reverse;
use std::collections::BinaryHeap;
use std::iter::Peekable;
use std::vec;

/// A number, or none where it is bare.
pub type Value = Option<i64>;

/// An event of a source.
pub type Event = (Tag, usize, Value);

/// The events that are due at later tags, of all sources but undelayed ports.
pub struct Agenda<'a> {
    program: &'a Program,
    future: BinaryHeap<Reverse<Event>>,
    /// The next firing of each timer.
    timers: BinaryHeap<Reverse<(u64, usize)>>,
    /// The events of physical actions, by tag.
    externals: Peekable<vec::IntoIter<Event>>,
    has_shut_down: bool,
}

impl<'a> Agenda<'a> {
    /// The external events are in order of their tags.
    pub fn new(program: &'a Program, externals: Vec<Event>) -> Agenda<'a> {
        let firings = program.timers.iter().enumerate();
        Agenda {
            program,
            future: BinaryHeap::from([Reverse((Tag::default(), STARTUP, None))]),
            timers: firings
                .map(|(number, timer)| Reverse((timer.offset, number)))
                .collect(),
            externals: externals.into_iter().peekable(),
            has_shut_down: program.sources[SHUTDOWN].readers.is_empty(),
        }
    }

    pub fn put(&mut self, event: Event) {
        self.future.push(Reverse(event));
    }

    /// The least tag up to the stop at which something is due.
    pub fn next(&mut self, stop: Tag) -> Option<Tag> {
        let future = self.future.peek().map(|Reverse((tag, _, _))| *tag);
        let timer = self.timers.peek().map(|Reverse((time, _))| Tag {
            time: *time,
            micro: 0,
        });
        let external = self.externals.peek().map(|(tag, _, _)| *tag);
        let shutdown = (!self.has_shut_down).then_some(stop);
        let due = [future, timer, external, shutdown]
            .into_iter()
            .flatten()
            .min();
        due.filter(|tag| *tag <= stop)
    }

    /// Takes all that is due at a tag, before which nothing is.
    pub fn take(&mut self, tag: Tag, stop: Tag, present: &mut Vec<(usize, Value)>) {
        while let Some((_, source, value)) = self.externals.next_if(|(at, _, _)| *at == tag) {
            present.push((source, value));
        }
        while let Some(Reverse((at, source, value))) = self.future.peek().copied()
            && at == tag
        {
            self.future.pop();
            present.push((source, value));
        }
        while let Some(Reverse((time, number))) = self.timers.peek().copied()
            && tag == (Tag { time, micro: 0 })
        {
            let timer = &self.program.timers[number];
            present.push((timer.source, None));
            self.timers.pop();
            if timer.period > 0 {
                self.timers.push(Reverse((time + timer.period, number)));
            }
        }
        if tag == stop && !self.has_shut_down {
            self.has_shut_down = true;
            present.push((SHUTDOWN, None));
        }
    }
}
