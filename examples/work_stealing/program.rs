//! A flat program: ports and precedence from the lines of `lftrace show`, and the code of the reactions.

use crate::lftrace::{Name, Tag, Value};
use crate::runtime::Run;
use std::collections::HashMap;

pub type Code = fn(&mut Run);

/// The instances of a reactor, its timers, actions and reactions. Names are those of the reactor.
pub struct Class {
    instances: &'static [&'static str],
    timers: Vec<(&'static str, Timer)>,
    actions: Vec<(&'static str, u64)>,
    reactions: Vec<Declared>,
}

type Names = &'static [&'static str];

struct Declared {
    triggers: Names,
    uses: Names,
    effects: Names,
    code: Code,
}

impl Class {
    pub fn of(instances: &'static [&'static str]) -> Class {
        Class { instances, timers: vec![], actions: vec![], reactions: vec![] }
    }

    pub fn timer(mut self, name: &'static str, offset: u64, period: u64) -> Class {
        self.timers.push((name, Timer { offset, period }));
        self
    }

    /// A logical action with its least delay, or a physical action.
    pub fn action(mut self, name: &'static str, delay: u64) -> Class {
        self.actions.push((name, delay));
        self
    }

    /// The next reaction, in order of declaration.
    pub fn reaction(mut self, triggers: Names, uses: Names, effects: Names, code: Code) -> Class {
        self.reactions.push(Declared { triggers, uses, effects, code });
        self
    }
}

#[derive(Clone, Copy)]
pub struct Timer {
    offset: u64,
    period: u64,
}

impl Timer {
    pub fn fires(&self, (time, microstep): Tag) -> bool {
        microstep == 0 && time >= self.offset && (time - self.offset) % self.period == 0
    }

    /// Its first firing after the time.
    pub fn next(&self, time: u64) -> Tag {
        let fired = if time < self.offset { 0 } else { (time - self.offset) / self.period + 1 };
        (self.offset + fired * self.period, 0)
    }
}

/// A port or an action, by its number.
pub type Signal = usize;

/// A port that receives what is written on another port later: the delays of the chain between them, folded.
pub struct Delayed {
    pub to: Signal,
    pub time: u64,
    pub microsteps: u32,
}

pub fn after((time, microstep): Tag, delay: u64, microsteps: u32) -> Tag {
    if delay > 0 {
        (time + delay, microsteps)
    } else {
        (time, microstep + microsteps)
    }
}

pub enum Trigger {
    Startup,
    Shutdown,
    Timer(Timer),
    Signal(Signal),
}

pub struct Reaction {
    pub name: Name,
    /// The place of its instance in the list of instances.
    pub instance: usize,
    pub triggers: Vec<Trigger>,
    /// Triggers and uses that are ports or actions.
    pub inputs: Vec<Signal>,
    pub effects: Vec<Signal>,
    /// How many reactions are just before it, and which are just behind it.
    pub before: i32,
    pub behind: Vec<usize>,
    pub code: Code,
}

#[derive(Default)]
pub struct Program {
    /// The names of the signals, in order of their numbers, and then those of the reactions.
    pub names: Vec<String>,
    pub instances: Vec<&'static str>,
    pub timers: Vec<Timer>,
    pub reactions: Vec<Reaction>,
    /// The signal whose value a signal has: the origin of a port without delays, else the signal itself.
    pub place: Vec<Signal>,
    /// The ports that receive what is written on a signal later.
    pub delayed: Vec<Vec<Delayed>>,
    /// The least delay of an action, 0 for ports.
    pub least: Vec<u64>,
    signals: HashMap<String, Signal>,
}

impl Program {
    /// `shown` is the output of `lftrace show`.
    pub fn new(shown: &str, classes: &[Class]) -> Result<Program, String> {
        let mut program = Program::default();
        program.add_ports(shown)?;
        let mut reactions = HashMap::new();
        for class in classes {
            for instance in class.instances {
                program.add_instance(instance, class, &mut reactions)?;
            }
        }
        program.add_reactions(shown, &mut reactions)?;
        match reactions.into_keys().next() {
            Some(name) => Err(format!("the program has no {name}")),
            None => Ok(program),
        }
    }

    pub fn signal(&self, name: &str) -> Result<Signal, String> {
        self.signals.get(name).copied().ok_or(format!("there is no {name}"))
    }

    /// What a name stands for in an instance.
    pub fn own(&self, instance: usize, name: &str) -> Result<Signal, String> {
        self.signal(&format!("{}.{name}", self.instances[instance]))
    }

    /// The events of a table of external inputs, in order of their tags.
    pub fn events(&self, table: &str) -> Result<Vec<(Tag, Signal, Value)>, String> {
        let mut events = vec![];
        for line in table.lines().filter(|line| line.starts_with("event,")) {
            let fields: Vec<_> = line.split(',').collect();
            let number = |field: &str| field.parse::<i64>().map_err(|_| line.to_string());
            let tag = (number(fields[1])? as u64, number(fields[2])? as u32);
            let value = if fields[4].is_empty() { None } else { Some(number(fields[4])?) };
            events.push((tag, self.signal(fields[3])?, value));
        }
        events.sort();
        Ok(events)
    }

    fn add_ports(&mut self, shown: &str) -> Result<(), String> {
        let ports: Vec<_> = shown.lines().filter_map(port).collect();
        for (name, ..) in &ports {
            self.add_signal(name.to_string(), 0);
        }
        for (name, origin, time, microsteps) in ports {
            let (to, origin) = (self.signal(name)?, self.signal(origin)?);
            if (time, microsteps) == (0, 0) {
                self.place[to] = origin;
            } else {
                self.delayed[origin].push(Delayed { to, time, microsteps });
            }
        }
        Ok(())
    }

    fn add_signal(&mut self, name: String, least: u64) {
        self.signals.insert(name.clone(), self.names.len());
        self.place.push(self.names.len());
        self.delayed.push(vec![]);
        self.least.push(least);
        self.names.push(name);
    }

    fn add_instance(
        &mut self,
        path: &'static str,
        class: &Class,
        reactions: &mut HashMap<String, Reaction>,
    ) -> Result<(), String> {
        let instance = self.instances.len();
        self.instances.push(path);
        self.timers.extend(class.timers.iter().map(|timer| timer.1));
        for (name, least) in &class.actions {
            self.add_signal(format!("{path}.{name}"), *least);
        }
        for (place, declared) in class.reactions.iter().enumerate() {
            let reaction = self.reaction(instance, class, declared)?;
            reactions.insert(format!("{path}#{}", place + 1), reaction);
        }
        Ok(())
    }

    fn reaction(&self, instance: usize, class: &Class, declared: &Declared) -> Result<Reaction, String> {
        let (mut triggers, mut inputs) = (vec![], vec![]);
        for name in declared.triggers {
            triggers.push(match (*name, class.timers.iter().find(|timer| timer.0 == *name)) {
                ("startup", _) => Trigger::Startup,
                ("shutdown", _) => Trigger::Shutdown,
                (_, Some(timer)) => Trigger::Timer(timer.1),
                _ => {
                    let signal = self.own(instance, name)?;
                    inputs.push(signal);
                    Trigger::Signal(signal)
                }
            });
        }
        for name in declared.uses {
            inputs.push(self.own(instance, name)?);
        }
        let effects = declared.effects.iter().map(|name| self.own(instance, name)).collect::<Result<_, _>>()?;
        let code = declared.code;
        Ok(Reaction { name: 0, instance, triggers, inputs, effects, before: 0, behind: vec![], code })
    }

    /// Puts the reactions in the order of their numbers, with their names and their precedence.
    fn add_reactions(&mut self, shown: &str, reactions: &mut HashMap<String, Reaction>) -> Result<(), String> {
        let shown: Vec<_> = shown.lines().filter_map(reaction).collect();
        for (name, _) in &shown {
            let reaction = reactions.remove(*name).ok_or(format!("there is no code for {name}"))?;
            self.reactions.push(Reaction { name: self.names.len(), ..reaction });
            self.names.push(name.to_string());
        }
        for (number, (_, before)) in shown.iter().enumerate() {
            for before in before.split(' ').filter(|before| *before != "-") {
                let place = shown.iter().position(|(name, _)| *name == before);
                let before = place.ok_or(format!("there is no {before}"))?;
                self.reactions[number].before += 1;
                self.reactions[before].behind.push(number);
            }
        }
        Ok(())
    }
}

/// The port, origin, delay and microsteps of a line `port P origin=O after=TIME+MICROSTEPS`.
fn port(line: &str) -> Option<(&str, &str, u64, u32)> {
    let (port, rest) = line.strip_prefix("port ")?.split_once(" origin=")?;
    let (origin, after) = rest.split_once(" after=")?;
    let (time, microsteps) = after.split_once('+')?;
    Some((port, origin, time.parse().ok()?, microsteps.parse().ok()?))
}

/// The reaction of a line `reaction X level=K before=Y Z`, and what is just before it.
fn reaction(line: &str) -> Option<(&str, &str)> {
    let (reaction, rest) = line.strip_prefix("reaction ")?.split_once(" level=")?;
    Some((reaction, rest.split_once(" before=")?.1))
}
