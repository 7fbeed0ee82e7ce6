//! The text of a report.

use crate::registry::Registry;
use crate::types::{Body, Command, Message, NodeSet, Op, Refusal, Reply, RequestNo, SharedCommand};

/// The lines of a report so far.
#[derive(Default)]
pub struct Report {
    text: Vec<u8>,
}

impl Report {
    /// A message went on the wire.
    pub fn send(&mut self, number: usize, message: &Message) {
        self.word(b"send");
        self.number(number as u64);
        self.number(u64::from(message.from));
        self.number(u64::from(message.to));
        self.body(&message.body);
        self.end_line();
    }

    /// A request was acknowledged.
    pub fn ack(&mut self, node: u8, request: RequestNo, reply: Reply) {
        self.word(b"ack");
        self.number(u64::from(node));
        self.request(request);
        self.word(reply_word(reply));
        if let Reply::Taken(owner) = reply {
            self.number(u64::from(owner));
        }
        self.end_line();
    }

    /// An opening ended, with this registry.
    pub fn restart(&mut self, node: u8, facts: u64, decided: u32, registry: Option<&Registry>) {
        self.word(b"restart");
        self.number(u64::from(node));
        self.number(facts);
        self.number(u64::from(decided));
        for (name, holding) in registry.into_iter().flat_map(Registry::bindings) {
            self.text.extend_from_slice(name);
            self.text.push(b'=');
            self.digits(u64::from(holding.owner));
            self.text.push(b':');
            self.word(&holding.value);
        }
        self.end_line();
    }

    /// The event of a line was refused.
    pub fn refuse(&mut self, line: u32, refusal: Refusal) {
        self.word(b"refuse");
        self.number(u64::from(line));
        self.word(refusal_words(refusal));
        self.end_line();
    }

    /// The decided list.
    pub fn decided(&mut self, list: &[SharedCommand]) {
        self.word(b"decided");
        self.number(list.len() as u64);
        self.end_line();
        for (place, command) in (0..).zip(list) {
            self.number(place);
            self.command(command);
            self.end_line();
        }
    }

    /// How many bytes it has so far.
    pub fn len(&self) -> usize {
        self.text.len()
    }

    pub fn into_text(self) -> Vec<u8> {
        self.text
    }

    fn body(&mut self, body: &Body) {
        match body {
            Body::Estimate {
                instance,
                round,
                stamp,
                command,
            } => {
                self.numbers(b"estimate", &[*instance, *round, *stamp]);
                self.command(command);
            }
            Body::Proposal {
                instance,
                round,
                command,
            } => {
                self.numbers(b"proposal", &[*instance, *round]);
                self.command(command);
            }
            Body::Ack { instance, round } => self.numbers(b"ack", &[*instance, *round]),
            Body::Decision { instance, command } => {
                self.numbers(b"decision", &[*instance]);
                self.command(command);
            }
            Body::Request { command } => {
                self.word(b"request");
                self.command(command);
            }
            Body::Nack { instance, round } => self.numbers(b"nack", &[*instance, *round]),
            Body::Beat => self.word(b"beat"),
            Body::Suspects { set } => {
                self.word(b"suspects");
                self.set(*set);
            }
            Body::Ask { instance } => self.numbers(b"ask", &[*instance]),
        }
    }

    fn numbers(&mut self, word: &[u8], numbers: &[u32]) {
        self.word(word);
        for &number in numbers {
            self.number(u64::from(number));
        }
    }

    fn command(&mut self, command: &Command) {
        self.request(command.request);
        match &command.op {
            Op::Claim { name, value } => self.valued(b"claim", name, value),
            Op::Update { name, value } => self.valued(b"update", name, value),
            Op::Release { name } => self.valued(b"release", name, b""),
            Op::Transfer { name, owner } => {
                self.valued(b"transfer", name, b"");
                self.number(u64::from(*owner));
            }
        }
    }

    fn valued(&mut self, verb: &[u8], name: &[u8], value: &[u8]) {
        self.word(verb);
        self.word(name);
        if !value.is_empty() {
            self.word(value);
        }
    }

    fn request(&mut self, request: RequestNo) {
        self.digits(u64::from(request.client));
        self.text.push(b'.');
        self.number(request.seq);
    }

    fn set(&mut self, set: NodeSet) {
        if set == 0 {
            self.text.push(b'-');
        }
        let members = (0..8).filter(|p| set >> p & 1 == 1);
        self.text.extend(members.map(|p| b'0' + p));
        self.text.push(b' ');
    }

    fn word(&mut self, word: &[u8]) {
        self.text.extend_from_slice(word);
        self.text.push(b' ');
    }

    fn number(&mut self, number: u64) {
        self.digits(number);
        self.text.push(b' ');
    }

    fn digits(&mut self, mut number: u64) {
        let mut digits = [0; 20];
        let mut first = digits.len();
        loop {
            first -= 1;
            digits[first] = b'0' + (number % 10) as u8;
            number /= 10;
            if number == 0 {
                break;
            }
        }
        self.text.extend_from_slice(&digits[first..]);
    }

    /// A line feed takes the place of the space behind the last word.
    fn end_line(&mut self) {
        if let Some(last) = self.text.last_mut() {
            *last = b'\n';
        }
    }
}

fn reply_word(reply: Reply) -> &'static [u8] {
    match reply {
        Reply::Claimed => b"claimed",
        Reply::Updated => b"updated",
        Reply::Released => b"released",
        Reply::Transferred => b"transferred",
        Reply::Taken(_) => b"taken",
        Reply::Unknown => b"unknown",
        Reply::NotOwner => b"notowner",
        Reply::Full => b"full",
    }
}

/// A refusal's number and name.
fn refusal_words(refusal: Refusal) -> &'static [u8] {
    match refusal {
        Refusal::OutOfMemory => b"1 OutOfMemory",
        Refusal::Device => b"2 Device",
        Refusal::Damaged => b"3 Damaged",
        Refusal::Failed => b"4 Failed",
        Refusal::Down => b"5 Down",
        Refusal::ListFull => b"9 ListFull",
        Refusal::RoundsOut => b"10 RoundsOut",
        Refusal::Busy => b"13 Busy",
        Refusal::TooLarge => b"16 TooLarge",
    }
}
