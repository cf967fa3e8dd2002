//! Reads the text of a program, and passes over what means nothing.

pub enum Delay<'a> {
    Fixed(u64),
    Named(&'a str),
}

pub struct Name<'a> {
    pub outer: &'a str,
    pub inner: Option<&'a str>,
}

#[derive(Default)]
pub struct WrittenReaction<'a> {
    pub startup: bool,
    pub shutdown: bool,
    pub triggers: Vec<Name<'a>>,
    pub uses: Vec<Name<'a>>,
    pub effects: Vec<Name<'a>>,
}

pub struct WrittenInstance<'a> {
    pub name: &'a str,
    pub class: &'a str,
    pub times: Vec<(&'a str, Delay<'a>)>,
}

pub struct Connection<'a> {
    pub from: Vec<Name<'a>>,
    pub to: Vec<Name<'a>>,
    pub delay: Option<Delay<'a>>,
}

#[derive(Default)]
pub struct Class<'a> {
    pub name: &'a str,
    pub is_main: bool,
    pub parameters: Vec<(&'a str, u64)>,
    pub ports: Vec<&'a str>,
    /// With offset and period.
    pub timers: Vec<(&'a str, Delay<'a>, Delay<'a>)>,
    /// Whether it is physical, and its minimum delay.
    pub actions: Vec<(&'a str, bool, Delay<'a>)>,
    pub reactions: Vec<WrittenReaction<'a>>,
    pub instances: Vec<WrittenInstance<'a>>,
    pub connections: Vec<Connection<'a>>,
}

/// The length of the comment at the head of a text, if one is there.
fn comment(text: &str) -> Option<usize> {
    if text.starts_with("//") || text.starts_with('#') {
        Some(text.find('\n').unwrap_or(text.len()))
    } else {
        text.starts_with("/*")
            .then(|| 4 + text[2..].find("*/").expect("the end of a comment"))
    }
}

/// The length of the token at the head of a text.
fn token(text: &str) -> usize {
    let is_letter = |c: char| c.is_ascii_alphanumeric() || c == '_';
    let first = text.chars().next().expect("a token");
    if text.starts_with("{=") {
        4 + text[2..].find("=}").expect("the end of code")
    } else if text.starts_with("->") {
        2
    } else if first == '"' {
        let mut escaped = false;
        let end = text[1..].find(|c| {
            let ends = c == '"' && !escaped;
            escaped = c == '\\' && !escaped;
            ends
        });
        2 + end.expect("the end of a string")
    } else if first.is_ascii_digit() {
        text.find(|c: char| !c.is_ascii_digit())
            .unwrap_or(text.len())
    } else if is_letter(first) {
        text.find(|c| !is_letter(c)).unwrap_or(text.len())
    } else {
        first.len_utf8()
    }
}

fn tokens(mut text: &str) -> Vec<&str> {
    let mut tokens = Vec::new();
    loop {
        text = text.trim_start_matches([' ', '\t', '\r', '\n', ';']);
        if text.is_empty() {
            return tokens;
        }
        let end = match comment(text) {
            Some(end) => end,
            None => {
                tokens.push(&text[..token(text)]);
                token(text)
            }
        };
        text = &text[end..];
    }
}

fn is_number(token: &str) -> bool {
    token.starts_with(|c: char| c.is_ascii_digit())
}

fn is_name(token: &str) -> bool {
    const RESERVED: [&str; 19] = [
        "target", "preamble", "private", "public", "main", "reactor", "mutable", "input", "output",
        "timer", "logical", "physical", "action", "state", "reaction", "startup", "shutdown",
        "new", "after",
    ];
    token.starts_with(|c: char| c.is_ascii_alphabetic() || c == '_') && !RESERVED.contains(&token)
}

fn unit(token: &str) -> Option<u64> {
    Some(match token {
        "ns" | "nsec" | "nsecs" => 1,
        "us" | "usec" | "usecs" => 1_000,
        "ms" | "msec" | "msecs" => 1_000_000,
        "s" | "sec" | "secs" | "second" | "seconds" => 1_000_000_000,
        "min" | "mins" | "minute" | "minutes" => 60_000_000_000,
        "h" | "hour" | "hours" => 3_600_000_000_000,
        "d" | "day" | "days" => 86_400_000_000_000,
        "week" | "weeks" => 604_800_000_000_000,
        _ => return None,
    })
}

struct Parser<'a> {
    tokens: Vec<&'a str>,
    at: usize,
}

impl<'a> Parser<'a> {
    fn peek(&self, ahead: usize) -> &'a str {
        self.tokens.get(self.at + ahead).copied().unwrap_or("")
    }

    fn next(&mut self) -> &'a str {
        let token = self.peek(0);
        self.at += 1;
        token
    }

    fn takes(&mut self, token: &str) -> bool {
        let taken = self.peek(0) == token;
        self.at += usize::from(taken);
        taken
    }

    fn expect(&mut self, token: &str) {
        assert_eq!(self.next(), token);
    }

    /// Passes over a group, if one begins here with this bracket.
    fn group(&mut self, open: &str, close: &str) {
        let mut depth = 0;
        while depth > 0 || self.peek(0) == open {
            match self.next() {
                token if token == open => depth += 1,
                token if token == close => depth -= 1,
                token => assert!(!token.is_empty(), "the end of a group"),
            }
            if depth == 0 {
                return;
            }
        }
    }

    /// What stands between brackets, item by item.
    fn list<T>(&mut self, item: impl Fn(&mut Parser<'a>) -> T) -> Vec<T> {
        let mut items = Vec::new();
        if self.takes("(") && !self.takes(")") {
            items.push(item(self));
            while self.takes(",") {
                items.push(item(self));
            }
            self.expect(")");
        }
        items
    }

    fn name(&mut self) -> Name<'a> {
        let outer = self.next();
        let inner = self.takes(".").then(|| self.next());
        Name { outer, inner }
    }

    fn names(&mut self) -> Vec<Name<'a>> {
        let mut names = vec![self.name()];
        while self.takes(",") {
            names.push(self.name());
        }
        names
    }

    /// Whether the name after a number belongs to it: else it begins the next member.
    fn is_suffix(&self, is_in_list: bool) -> bool {
        let begins_member = ["=", ".", ",", "->"].contains(&self.peek(1));
        is_name(self.peek(0)) && (is_in_list || !begins_member)
    }

    fn delay(&mut self, is_in_list: bool) -> Delay<'a> {
        let token = self.next();
        if !is_number(token) {
            return Delay::Named(token);
        }
        let number: u64 = token.parse().expect("a number");
        if self.is_suffix(is_in_list) && unit(self.peek(0)).is_some() {
            Delay::Fixed(number * unit(self.next()).unwrap_or(1))
        } else {
            Delay::Fixed(number)
        }
    }

    fn skip_type(&mut self) {
        if !self.takes(":") {
            return;
        }
        self.at += 1;
        while [".", ":"].contains(&self.peek(0)) {
            self.at += if self.peek(0) == "." { 2 } else { 3 };
        }
        while self.takes("*") {}
        while self.takes("[") {
            while self.next() != "]" {}
        }
    }

    fn skip_value(&mut self) {
        if !self.takes("=") {
            self.group("(", ")");
            self.group("{", "}");
        } else if ["{", "[", "("].contains(&self.peek(0)) {
            self.group("{", "}");
            self.group("[", "]");
            self.group("(", ")");
        } else {
            self.takes("-");
            let is_number = is_number(self.next());
            while self.takes(".") {
                self.at += 1;
            }
            if is_number && self.is_suffix(false) {
                self.at += 1;
                if self.takes("+") || self.takes("-") {
                    self.at += 1;
                }
            }
        }
    }

    fn reaction(&mut self) -> WrittenReaction<'a> {
        let mut reaction = WrittenReaction::default();
        if self.peek(0) != "(" {
            self.at += 1;
        }
        for name in self.list(|parser| parser.name()) {
            match name.outer {
                "startup" => reaction.startup = true,
                "shutdown" => reaction.shutdown = true,
                _ => reaction.triggers.push(name),
            }
        }
        if is_name(self.peek(0)) {
            reaction.uses = self.names();
        }
        if self.takes("->") {
            reaction.effects = self.names();
        }
        assert!(self.next().starts_with("{="), "code");
        reaction
    }

    fn instance(&mut self) -> WrittenInstance<'a> {
        let name = self.next();
        self.expect("=");
        self.expect("new");
        let class = self.next();
        let times = self.list(|parser| {
            let name = parser.next();
            if parser.takes("=") {
                return (name, parser.delay(true));
            }
            let mut given = parser.list(|parser| parser.delay(true));
            (name, given.pop().expect("a time"))
        });
        WrittenInstance { name, class, times }
    }

    fn connection(&mut self) -> Connection<'a> {
        let from = self.names();
        self.expect("->");
        let to = self.names();
        let delay = self.takes("after").then(|| self.delay(false));
        Connection { from, to, delay }
    }

    fn member(&mut self, class: &mut Class<'a>) {
        match self.peek(0) {
            "mutable" | "private" | "public" => self.at += 1,
            "preamble" => self.at += 2,
            "input" | "output" => {
                self.at += 1;
                class.ports.push(self.next());
                self.skip_type();
            }
            "timer" => {
                self.at += 1;
                let name = self.next();
                let mut times = self.list(|parser| parser.delay(true)).into_iter();
                let mut time = || times.next().unwrap_or(Delay::Fixed(0));
                class.timers.push((name, time(), time()));
            }
            "logical" | "physical" => {
                let physical = self.next() == "physical";
                self.expect("action");
                let name = self.next();
                let minimum = self.list(|parser| parser.delay(true)).pop();
                class
                    .actions
                    .push((name, physical, minimum.unwrap_or(Delay::Fixed(0))));
                self.skip_type();
            }
            "state" => {
                self.at += 2;
                self.skip_type();
                self.skip_value();
            }
            "reaction" => {
                self.at += 1;
                class.reactions.push(self.reaction());
            }
            _ if self.peek(1) == "=" => class.instances.push(self.instance()),
            _ => class.connections.push(self.connection()),
        }
    }

    fn class(&mut self) -> Class<'a> {
        let mut class = Class {
            is_main: self.takes("main"),
            ..Class::default()
        };
        self.expect("reactor");
        if is_name(self.peek(0)) {
            class.name = self.next();
        }
        class.parameters = self.list(|parser| {
            let name = parser.next();
            parser.expect(":");
            parser.expect("time");
            let time = if parser.takes("=") {
                parser.delay(true)
            } else {
                parser
                    .list(|parser| parser.delay(true))
                    .pop()
                    .expect("a default")
            };
            match time {
                Delay::Fixed(time) => (name, time),
                Delay::Named(_) => panic!("a name as a default"),
            }
        });
        self.expect("{");
        while !self.takes("}") {
            self.member(&mut class);
        }
        class
    }
}

/// The reactors of a program's text.
pub fn read_tree(text: &str) -> Vec<Class<'_>> {
    let mut parser = Parser {
        tokens: tokens(text),
        at: 0,
    };
    let mut classes = Vec::new();
    if parser.takes("target") {
        parser.at += 1;
        parser.group("{", "}");
    }
    while !parser.peek(0).is_empty() {
        match parser.peek(0) {
            "private" | "public" => parser.at += 1,
            "preamble" => parser.at += 2,
            _ => classes.push(parser.class()),
        }
    }
    classes
}
