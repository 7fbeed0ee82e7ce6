//! The text of a schedule.

use std::fmt;

use crate::types::{is_name, is_value, Command, NodeId, NodeSet, Op, RequestNo, MAX_NODES};

const MAX_EVENTS: usize = 1_000_000;

/// What happens at a node.
pub enum Action {
    Submit(Command),
    Hear(u32),
    Suspect(NodeSet),
    Tick,
    Advance,
    Take,
    Device,
    Fail(Vec<u8>),
    Mark,
    Send,
    Ack,
    Snap,
    Crash([u32; 2], Vec<u8>),
    Restart,
}

pub struct Event {
    pub node: NodeId,
    pub action: Action,
}

/// Why a text is no schedule.
pub enum Fault {
    BadNodes,
    BadEvent { line: usize },
}

impl fmt::Display for Fault {
    fn fmt(&self, f: &mut fmt::Formatter) -> fmt::Result {
        match self {
            Fault::BadNodes => write!(f, "6 BadNodes"),
            Fault::BadEvent { line } => write!(f, "14 BadEvent {line}"),
        }
    }
}

/// The events of a schedule, read line by line.
pub struct Schedule<'a> {
    pub nodes: u8,
    rest: &'a [u8],
    line: usize,
    last_line: usize,
}

impl<'a> Schedule<'a> {
    /// Reads the first line.
    pub fn begin(text: &'a [u8]) -> Result<Self, Fault> {
        let no_place = Fault::BadEvent { line: 1 };
        let Some((line, rest)) = split_line(text) else {
            return Err(no_place);
        };
        match line.strip_prefix(b"nodes ") {
            Some(&[digit @ b'1'..=b'7']) => Ok(Schedule {
                nodes: digit - b'0',
                rest,
                line: 1,
                last_line: MAX_EVENTS + 1,
            }),
            Some(word) if is_number(word) => Err(Fault::BadNodes),
            _ => Err(no_place),
        }
    }

    /// Lines among so many nodes that no first line tells, of which there may
    /// be any number.
    pub fn without_head(nodes: u8, text: &'a [u8]) -> Self {
        Schedule {
            nodes,
            rest: text,
            line: 0,
            last_line: usize::MAX,
        }
    }

    /// The same schedule, which may have any number of events.
    pub fn of_any_length(mut self) -> Self {
        self.last_line = usize::MAX;
        self
    }

    /// The next event and its line; None behind the last.
    pub fn next(&mut self) -> Result<Option<(u32, Event)>, Fault> {
        self.next_by(read_event)
    }

    /// The next line's number and what a reader finds in it, which is told how
    /// many nodes there are.
    pub fn next_by<T>(
        &mut self,
        read: impl FnOnce(&'a [u8], u8) -> Option<T>,
    ) -> Result<Option<(u32, T)>, Fault> {
        if self.rest.is_empty() {
            return Ok(None);
        }
        self.line += 1;
        let fault = Fault::BadEvent { line: self.line };
        if self.line > self.last_line {
            return Err(fault);
        }
        let Some((line, rest)) = split_line(self.rest) else {
            return Err(fault);
        };
        self.rest = rest;
        let event = read(line, self.nodes).ok_or(fault)?;
        Ok(Some((self.line as u32, event)))
    }
}

fn split_line(text: &[u8]) -> Option<(&[u8], &[u8])> {
    let end = text.iter().position(|&byte| byte == b'\n')?;
    Some((&text[..end], &text[end + 1..]))
}

/// Reads an event among so many nodes.
pub fn read_event(line: &[u8], nodes: u8) -> Option<Event> {
    let mut words = line.split(|&byte| byte == b' ');
    let keyword = words.next()?;
    let node = read_node(words.next()?, nodes)?;
    let action = match keyword {
        b"submit" => Action::Submit(read_command(&mut words)?),
        b"hear" => Action::Hear(read_u32(words.next()?)?),
        b"suspect" => Action::Suspect(read_set(words.next()?, nodes)?),
        b"tick" => Action::Tick,
        b"advance" => Action::Advance,
        b"take" => Action::Take,
        b"dev" => Action::Device,
        b"fail" => Action::Fail(read_fill(words.next()?)?),
        b"mark" => Action::Mark,
        b"send" => Action::Send,
        b"ack" => Action::Ack,
        b"snap" => Action::Snap,
        b"crash" => {
            let cuts = [read_u32(words.next()?)?, read_u32(words.next()?)?];
            Action::Crash(cuts, read_fill(words.next()?)?)
        }
        b"restart" => Action::Restart,
        _ => return None,
    };
    words.next().is_none().then_some(Event { node, action })
}

fn read_command<'a>(words: &mut impl Iterator<Item = &'a [u8]>) -> Option<Command> {
    let request = RequestNo {
        client: read_u32(words.next()?)?,
        seq: read_u64(words.next()?)?,
    };
    let op = read_op(words)?;
    Some(Command { request, op })
}

/// Reads an operation, whose bytes may be borrowed.
pub fn read_op<'a, T: From<&'a [u8]>>(words: &mut impl Iterator<Item = &'a [u8]>) -> Option<Op<T>> {
    let verb = words.next()?;
    let name = words.next().filter(|word| is_name(word))?.into();
    Some(match verb {
        b"claim" => Op::Claim {
            name,
            value: read_value(words.next())?.into(),
        },
        b"update" => Op::Update {
            name,
            value: read_value(words.next())?.into(),
        },
        b"release" => Op::Release { name },
        b"transfer" => Op::Transfer {
            name,
            owner: read_u32(words.next()?)?,
        },
        _ => return None,
    })
}

/// A value; where there is no word it is empty, but no word is.
fn read_value(word: Option<&[u8]>) -> Option<&[u8]> {
    match word {
        None => Some(&[]),
        Some(word) => (!word.is_empty() && is_value(word)).then_some(word),
    }
}

pub fn read_node(word: &[u8], nodes: u8) -> Option<NodeId> {
    let &[digit] = word else { return None };
    digit.checked_sub(b'0').filter(|&node| node < nodes)
}

/// Whether a word is a decimal number without leading zeros.
fn is_number(word: &[u8]) -> bool {
    let has_digits = !word.is_empty() && word.iter().all(u8::is_ascii_digit);
    has_digits && (word.len() == 1 || word[0] != b'0')
}

pub fn read_u64(word: &[u8]) -> Option<u64> {
    if !is_number(word) {
        return None;
    }
    word.iter().try_fold(0u64, |number, digit| {
        number.checked_mul(10)?.checked_add(u64::from(digit - b'0'))
    })
}

pub fn read_u32(word: &[u8]) -> Option<u32> {
    read_u64(word)?.try_into().ok()
}

/// A set of nodes: a hyphen, or ascending digits.
pub fn read_set(word: &[u8], nodes: u8) -> Option<NodeSet> {
    if word == b"-" {
        return Some(0);
    }
    let ascends = word.windows(2).all(|pair| pair[0] < pair[1]);
    if word.is_empty() || word.len() > MAX_NODES || !ascends {
        return None;
    }
    word.chunks(1)
        .try_fold(0, |set, digit| Some(set | 1 << read_node(digit, nodes)?))
}

/// The bytes of a fill: a hyphen, or pairs of upper-case hex digits.
fn read_fill(word: &[u8]) -> Option<Vec<u8>> {
    if word == b"-" {
        return Some(Vec::new());
    }
    if word.is_empty() || !word.len().is_multiple_of(2) {
        return None;
    }
    word.chunks(2)
        .map(|pair| Some(hex_value(pair[0])? << 4 | hex_value(pair[1])?))
        .collect()
}

fn hex_value(digit: u8) -> Option<u8> {
    match digit {
        b'0'..=b'9' => Some(digit - b'0'),
        b'A'..=b'F' => Some(digit - b'A' + 10),
        _ => None,
    }
}
