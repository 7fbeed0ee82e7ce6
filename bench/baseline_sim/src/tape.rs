//! The text of a tape.

use crate::schedule::{read_event, read_node, read_op, read_set, read_u32, read_u64, Event};
use crate::types::{
    Body, Command, Message, NodeId, Reply, RequestNo, SharedCommand, INSTANCES, LAST_ROUND,
};

/// What a tape has of a node.
pub enum TapeEvent<'a> {
    /// What it was told or did, without an answer.
    Did(Event),
    /// It put a message with this number on the wire.
    Sent(u32, Recorded<'a>),
    /// It acknowledged a request.
    Replied(NodeId, RequestNo, Reply),
}

/// A message as it stands on a tape.
pub struct Recorded<'a> {
    pub from: NodeId,
    to: NodeId,
    body: Flat<Command<&'a [u8]>>,
}

impl Recorded<'_> {
    /// Whether this is the message, in every field.
    pub fn is(&self, message: &Message) -> bool {
        let given = flatten(&message.body);
        let same_command = match (&self.body.command, given.command) {
            (Some(recorded), Some(command)) => *recorded == command.view(),
            (recorded, command) => recorded.is_none() && command.is_none(),
        };
        let same_ends = self.from == message.from && self.to == message.to;
        let same_numbers = self.body.kind == given.kind && self.body.numbers == given.numbers;
        same_ends && same_numbers && same_command
    }
}

/// A body by its kind, its numbers with zeros behind them, and its command.
struct Flat<C> {
    kind: Kind,
    numbers: [u32; 3],
    command: Option<C>,
}

#[derive(Clone, Copy, PartialEq, Eq)]
enum Kind {
    Estimate,
    Proposal,
    Ack,
    Decision,
    Request,
    Nack,
    Beat,
    Suspects,
    Ask,
}

fn flatten(body: &Body) -> Flat<&SharedCommand> {
    let (kind, numbers, command) = match body {
        Body::Estimate {
            instance,
            round,
            stamp,
            command,
        } => (Kind::Estimate, [*instance, *round, *stamp], Some(command)),
        Body::Proposal {
            instance,
            round,
            command,
        } => (Kind::Proposal, [*instance, *round, 0], Some(command)),
        Body::Ack { instance, round } => (Kind::Ack, [*instance, *round, 0], None),
        Body::Decision { instance, command } => (Kind::Decision, [*instance, 0, 0], Some(command)),
        Body::Request { command } => (Kind::Request, [0; 3], Some(command)),
        Body::Nack { instance, round } => (Kind::Nack, [*instance, *round, 0], None),
        Body::Beat => (Kind::Beat, [0; 3], None),
        Body::Suspects { set } => (Kind::Suspects, [u32::from(*set), 0, 0], None),
        Body::Ask { instance } => (Kind::Ask, [*instance, 0, 0], None),
    };
    Flat {
        kind,
        numbers,
        command,
    }
}

/// Reads an event of a tape of so many nodes.
pub fn read_tape_event(line: &[u8], nodes: u8) -> Option<TapeEvent<'_>> {
    let mut words = line.split(|&byte| byte == b' ');
    let event = match words.next()? {
        b"send" => {
            let number = read_u32(words.next()?)?;
            TapeEvent::Sent(number, read_message(&mut words, nodes)?)
        }
        b"ack" => {
            let node = read_node(words.next()?, nodes)?;
            TapeEvent::Replied(node, read_request(words.next()?)?, read_reply(&mut words)?)
        }
        b"submit" | b"hear" | b"suspect" | b"tick" | b"advance" | b"take" | b"mark" => {
            return read_event(line, nodes).map(TapeEvent::Did);
        }
        _ => return None,
    };
    words.next().is_none().then_some(event)
}

fn read_message<'a>(words: &mut impl Iterator<Item = &'a [u8]>, nodes: u8) -> Option<Recorded<'a>> {
    Some(Recorded {
        from: read_node(words.next()?, nodes)?,
        to: read_node(words.next()?, nodes)?,
        body: read_body(words, nodes)?,
    })
}

fn read_body<'a>(
    words: &mut impl Iterator<Item = &'a [u8]>,
    nodes: u8,
) -> Option<Flat<Command<&'a [u8]>>> {
    let kind = match words.next()? {
        b"estimate" => Kind::Estimate,
        b"proposal" => Kind::Proposal,
        b"ack" => Kind::Ack,
        b"decision" => Kind::Decision,
        b"request" => Kind::Request,
        b"nack" => Kind::Nack,
        b"beat" => Kind::Beat,
        b"suspects" => Kind::Suspects,
        b"ask" => Kind::Ask,
        _ => return None,
    };
    let numbers = read_numbers(kind, words, nodes)?;
    let has_command = matches!(
        kind,
        Kind::Estimate | Kind::Proposal | Kind::Decision | Kind::Request
    );
    let command = if has_command {
        Some(read_command(words)?)
    } else {
        None
    };
    Some(Flat {
        kind,
        numbers,
        command,
    })
}

/// Reads the numbers of a body, and the set of one that has a set.
fn read_numbers<'a>(
    kind: Kind,
    words: &mut impl Iterator<Item = &'a [u8]>,
    nodes: u8,
) -> Option<[u32; 3]> {
    Some(match kind {
        Kind::Beat | Kind::Request => [0; 3],
        Kind::Suspects => [u32::from(read_set(words.next()?, nodes)?), 0, 0],
        Kind::Ask | Kind::Decision => [read_instance(words.next()?)?, 0, 0],
        Kind::Proposal | Kind::Ack | Kind::Nack => {
            let instance = read_instance(words.next()?)?;
            [instance, read_round(words.next()?)?, 0]
        }
        Kind::Estimate => {
            let instance = read_instance(words.next()?)?;
            let round = read_round(words.next()?)?;
            let stamp = read_u32(words.next()?)?;
            if stamp >= round {
                return None;
            }
            [instance, round, stamp]
        }
    })
}

fn read_instance(word: &[u8]) -> Option<u32> {
    read_u32(word).filter(|&instance| instance < INSTANCES)
}

fn read_round(word: &[u8]) -> Option<u32> {
    read_u32(word).filter(|round| (1..=LAST_ROUND).contains(round))
}

/// Reads a request and its operation, as a report has them.
fn read_command<'a>(words: &mut impl Iterator<Item = &'a [u8]>) -> Option<Command<&'a [u8]>> {
    let request = read_request(words.next()?)?;
    let op = read_op(words)?;
    Some(Command { request, op })
}

/// A client and its number for the request, with a point between them.
fn read_request(word: &[u8]) -> Option<RequestNo> {
    let point = word.iter().position(|&byte| byte == b'.')?;
    Some(RequestNo {
        client: read_u32(&word[..point])?,
        seq: read_u64(&word[point + 1..])?,
    })
}

fn read_reply<'a>(words: &mut impl Iterator<Item = &'a [u8]>) -> Option<Reply> {
    Some(match words.next()? {
        b"claimed" => Reply::Claimed,
        b"updated" => Reply::Updated,
        b"released" => Reply::Released,
        b"transferred" => Reply::Transferred,
        b"taken" => Reply::Taken(read_u32(words.next()?)?),
        b"unknown" => Reply::Unknown,
        b"notowner" => Reply::NotOwner,
        b"full" => Reply::Full,
        _ => return None,
    })
}
