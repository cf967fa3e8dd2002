//! Programs as the plain judge and the recorder of shapes know them. A program that `lftrace show`
//! refuses may be read here as something else, or end the reader by a panic.

use crate::tree::{Class, Delay, Name, read_tree};
use std::collections::HashMap;

/// A tag, or what a chain of delays does to one: no delay is (0, 0).
#[derive(Clone, Copy, Debug, Default, PartialEq, Eq, PartialOrd, Ord, Hash)]
pub struct Tag {
    pub time: u64,
    pub micro: u64,
}

impl Tag {
    pub fn plus(self, delays: Tag) -> Tag {
        if delays.time > 0 {
            Tag {
                time: self.time + delays.time,
                micro: delays.micro,
            }
        } else {
            Tag {
                time: self.time,
                micro: self.micro + delays.micro,
            }
        }
    }

    pub fn after(self, delay: u64) -> Tag {
        let micro = u64::from(delay == 0);
        self.plus(Tag { time: delay, micro })
    }
}

/// Something that has events: an action, what comes from one port by one delay, timers that are
/// equal, startup or shutdown.
#[derive(Default)]
pub struct Source {
    pub readers: Vec<Reader>,
}

/// A reaction that a source triggers, or that reads it in the slot of one of its inputs.
#[derive(Clone, Copy, PartialEq)]
pub struct Reader {
    pub reaction: usize,
    pub slot: Option<usize>,
    pub triggers: bool,
}

pub enum Kind {
    /// What is written to it goes to these sources, after their delays.
    Port {
        feeds: Vec<(Tag, usize)>,
    },
    Action {
        physical: bool,
        minimum: u64,
    },
}

/// A port or an action.
pub struct Thing {
    pub name: String,
    pub kind: Kind,
    pub source: usize,
}

pub struct Timer {
    pub offset: u64,
    pub period: u64,
    pub source: usize,
}

#[derive(Default)]
pub struct Reaction {
    pub name: String,
    pub level: usize,
    /// The direct predecessors, of which the others are predecessors.
    pub before: Vec<usize>,
    /// Things by number, each with its slot.
    pub inputs: Vec<(usize, usize)>,
    /// Things by number.
    pub effects: Vec<usize>,
}

#[derive(Default)]
pub struct Program {
    pub reactions: Vec<Reaction>,
    pub things: Vec<Thing>,
    pub timers: Vec<Timer>,
    pub sources: Vec<Source>,
    pub slots: usize,
}

pub const STARTUP: usize = 0;
pub const SHUTDOWN: usize = 1;

/// What a name of an instance stands for.
#[derive(Clone, Copy)]
enum Member {
    Thing(usize),
    Timer(usize),
}

struct Instance<'a> {
    class: &'a Class<'a>,
    path: String,
    times: HashMap<&'a str, u64>,
    members: HashMap<&'a str, Member>,
    children: HashMap<&'a str, usize>,
    first_reaction: usize,
}

#[derive(Default)]
struct Flattening<'a> {
    classes: HashMap<&'a str, &'a Class<'a>>,
    instances: Vec<Instance<'a>>,
    program: Program,
    /// The source and the delay of each port that is a connection's destination.
    joins: HashMap<usize, (usize, Option<u64>)>,
    equal_timers: HashMap<(u64, u64), usize>,
}

fn value(delay: &Delay<'_>, times: &HashMap<&str, u64>) -> u64 {
    match delay {
        Delay::Fixed(time) => *time,
        Delay::Named(name) => times[name],
    }
}

impl<'a> Flattening<'a> {
    fn source(&mut self) -> usize {
        self.program.sources.push(Source::default());
        self.program.sources.len() - 1
    }

    /// Adds an instance and all in it, in pre-order.
    fn add(&mut self, class: &'a Class<'a>, path: String, times: HashMap<&'a str, u64>) -> usize {
        let number = self.instances.len();
        let members = self.members(class, &path, &times);
        let first_reaction = self.program.reactions.len();
        for at in 1..=class.reactions.len() {
            let name = format!("{path}#{at}");
            self.program.reactions.push(Reaction {
                name,
                ..Reaction::default()
            });
        }
        let children = HashMap::new();
        self.instances.push(Instance {
            class,
            path,
            times,
            members,
            children,
            first_reaction,
        });
        for child in &class.instances {
            let of = self.classes[child.class];
            let mut times: HashMap<_, _> = of
                .parameters
                .iter()
                .map(|(name, time)| (*name, *time))
                .collect();
            for (name, time) in &child.times {
                times.insert(*name, value(time, &self.instances[number].times));
            }
            let path = format!("{}.{}", self.instances[number].path, child.name);
            let added = self.add(of, path, times);
            self.instances[number].children.insert(child.name, added);
        }
        number
    }

    fn members(
        &mut self,
        class: &'a Class<'a>,
        path: &str,
        times: &HashMap<&str, u64>,
    ) -> HashMap<&'a str, Member> {
        let mut members = HashMap::new();
        for name in &class.ports {
            let kind = Kind::Port { feeds: Vec::new() };
            members.insert(*name, self.thing(format!("{path}.{name}"), kind));
        }
        for (name, physical, minimum) in &class.actions {
            let kind = Kind::Action {
                physical: *physical,
                minimum: value(minimum, times),
            };
            members.insert(*name, self.thing(format!("{path}.{name}"), kind));
        }
        for (name, offset, period) in &class.timers {
            let (offset, period) = (value(offset, times), value(period, times));
            let source = match self.equal_timers.get(&(offset, period)) {
                Some(source) => *source,
                None => {
                    let source = self.source();
                    self.equal_timers.insert((offset, period), source);
                    self.program.timers.push(Timer {
                        offset,
                        period,
                        source,
                    });
                    source
                }
            };
            members.insert(*name, Member::Timer(source));
        }
        members
    }

    /// A new thing; ports have their sources later.
    fn thing(&mut self, name: String, kind: Kind) -> Member {
        let source = match kind {
            Kind::Port { .. } => usize::MAX,
            Kind::Action { .. } => self.source(),
        };
        self.program.things.push(Thing { name, kind, source });
        Member::Thing(self.program.things.len() - 1)
    }

    fn find(&self, instance: usize, name: &Name<'a>) -> Member {
        let here = &self.instances[instance];
        match name.inner {
            Some(inner) => self.instances[here.children[name.outer]].members[inner],
            None => here.members[name.outer],
        }
    }

    fn port(&self, instance: usize, name: &Name<'a>) -> usize {
        match self.find(instance, name) {
            Member::Thing(thing) => thing,
            Member::Timer(_) => panic!("a timer where a port or an action is wanted"),
        }
    }

    fn connect(&mut self) {
        for instance in 0..self.instances.len() {
            let class = self.instances[instance].class;
            for connection in &class.connections {
                let delay = connection.delay.as_ref();
                let delay = delay.map(|delay| value(delay, &self.instances[instance].times));
                for (from, to) in connection.from.iter().zip(&connection.to) {
                    let from = self.port(instance, from);
                    self.joins.insert(self.port(instance, to), (from, delay));
                }
            }
        }
    }

    /// Finds the origin and the delays of each port, and makes one source for all ports that have
    /// both in common. Gives the origin of each thing that is reached without delay.
    fn find_sources(&mut self) -> Vec<Option<usize>> {
        let mut made = HashMap::new();
        let mut origins = Vec::new();
        for thing in 0..self.program.things.len() {
            origins.push(None);
            if let Kind::Action { .. } = self.program.things[thing].kind {
                continue;
            }
            let (mut origin, mut chain) = (thing, Vec::new());
            while let Some((from, delay)) = self.joins.get(&origin) {
                origin = *from;
                chain.extend(*delay);
            }
            let delays = chain
                .iter()
                .rev()
                .fold(Tag::default(), |sum, delay| sum.after(*delay));
            let source = *made.entry((origin, delays)).or_insert_with(|| {
                let sources = &mut self.program.sources;
                sources.push(Source::default());
                let source = sources.len() - 1;
                if let Kind::Port { feeds } = &mut self.program.things[origin].kind {
                    feeds.push((delays, source));
                }
                source
            });
            self.program.things[thing].source = source;
            if chain.is_empty() {
                origins[thing] = Some(origin);
            }
        }
        origins
    }

    fn add_reader(&mut self, source: usize, reader: Reader) {
        let readers = &mut self.program.sources[source].readers;
        if readers.last() != Some(&reader) {
            readers.push(reader);
        }
    }

    fn add_input(&mut self, reaction: usize, thing: usize, triggers: bool) {
        let slot = self.program.slots;
        self.program.slots += 1;
        self.program.reactions[reaction].inputs.push((thing, slot));
        let source = self.program.things[thing].source;
        self.add_reader(
            source,
            Reader {
                reaction,
                slot: Some(slot),
                triggers,
            },
        );
    }

    fn fill_reactions(&mut self) {
        for instance in 0..self.instances.len() {
            let class = self.instances[instance].class;
            let first = self.instances[instance].first_reaction;
            for (reaction, written) in (first..).zip(&class.reactions) {
                let timed = Reader {
                    reaction,
                    slot: None,
                    triggers: true,
                };
                if written.startup {
                    self.add_reader(STARTUP, timed);
                }
                if written.shutdown {
                    self.add_reader(SHUTDOWN, timed);
                }
                for name in &written.triggers {
                    match self.find(instance, name) {
                        Member::Thing(thing) => self.add_input(reaction, thing, true),
                        Member::Timer(source) => self.add_reader(source, timed),
                    }
                }
                for name in &written.uses {
                    if let Member::Thing(thing) = self.find(instance, name) {
                        self.add_input(reaction, thing, false);
                    }
                }
                for name in &written.effects {
                    let thing = self.port(instance, name);
                    self.program.reactions[reaction].effects.push(thing);
                }
                let filled = &mut self.program.reactions[reaction];
                filled.inputs.sort_unstable();
                filled.effects.sort_unstable();
                if reaction > first {
                    filled.before.push(reaction - 1);
                }
            }
        }
    }

    /// The reactions that write one port are of one instance, so the last precedes by the others.
    fn find_before(&mut self, origins: &[Option<usize>]) {
        let reactions = &mut self.program.reactions;
        let mut writers = HashMap::new();
        for (number, reaction) in reactions.iter().enumerate() {
            for effect in &reaction.effects {
                writers.insert(*effect, number);
            }
        }
        for reaction in reactions {
            for (thing, _) in &reaction.inputs {
                if let Some(writer) = origins[*thing].and_then(|origin| writers.get(&origin)) {
                    reaction.before.push(*writer);
                }
            }
            reaction.before.sort_unstable();
            reaction.before.dedup();
        }
    }
}

/// Sets the level of each reaction: one more than the greatest of those that precede it.
fn set_levels(program: &mut Program) {
    let count = program.reactions.len();
    let mut waits: Vec<_> = program
        .reactions
        .iter()
        .map(|reaction| reaction.before.len())
        .collect();
    let mut followers = vec![Vec::new(); count];
    for (number, reaction) in program.reactions.iter().enumerate() {
        for before in &reaction.before {
            followers[*before].push(number);
        }
    }
    let mut order: Vec<_> = (0..count).filter(|number| waits[*number] == 0).collect();
    let mut at = 0;
    while let Some(number) = order.get(at).copied() {
        let level = program.reactions[number].level;
        for follower in &followers[number] {
            let reaction = &mut program.reactions[*follower];
            reaction.level = reaction.level.max(level + 1);
            waits[*follower] -= 1;
            if waits[*follower] == 0 {
                order.push(*follower);
            }
        }
        at += 1;
    }
    assert_eq!(order.len(), count, "a causality loop");
}

pub fn read_program(text: &str) -> Program {
    let classes = read_tree(text);
    let mut flattening = Flattening::default();
    flattening.classes = classes.iter().map(|class| (class.name, class)).collect();
    flattening.source();
    flattening.source();
    let main = classes
        .iter()
        .find(|class| class.is_main)
        .expect("a main reactor");
    let times = main
        .parameters
        .iter()
        .map(|(name, time)| (*name, *time))
        .collect();
    flattening.add(main, "main".to_string(), times);
    flattening.connect();
    let origins = flattening.find_sources();
    flattening.fill_reactions();
    flattening.find_before(&origins);
    let mut program = flattening.program;
    set_levels(&mut program);
    // A timer that triggers nothing may fire at any number of tags.
    program
        .timers
        .retain(|timer| !program.sources[timer.source].readers.is_empty());
    program
}
