//! Messages as bytes, by the types and the reader of `bench/baseline`, and as
//! a report tells them.

use std::rc::Rc;

use crate::report::Report;
use crate::types as told;

#[path = "../../baseline/src/types.rs"]
#[allow(dead_code)]
pub mod types;
#[path = "../../baseline/src/wire.rs"]
pub mod wire;

use types::{Body, Command, Message, Op, Refusal};

const NODES: u8 = 7;

/// The line of a report that has the message which bytes spell, and whether it
/// is written as these bytes; where they spell none, the place of the fault.
pub fn read(bytes: &[u8]) -> Result<(Vec<u8>, bool), u64> {
    match wire::decode(NODES, bytes) {
        Ok(message) => {
            let mut report = Report::default();
            report.send(0, &to_tell(&message));
            report.decided(&[]);
            Ok((report.into_text(), wire::encode(&message) == bytes))
        }
        Err(Refusal::Malformed(place)) => Err(place),
        Err(_) => unreachable!("a reader knows one fault"),
    }
}

fn to_tell(message: &Message) -> told::Message {
    told::Message {
        from: message.from.index(),
        to: message.to.index(),
        body: body_of(&message.body),
    }
}

fn body_of(body: &Body) -> told::Body {
    match body {
        Body::Estimate(instance, estimate) => told::Body::Estimate {
            instance: instance.number(),
            round: estimate.round.number(),
            stamp: estimate.stamp,
            command: command_of(&estimate.command),
        },
        Body::Proposal(instance, round, command) => told::Body::Proposal {
            instance: instance.number(),
            round: round.number(),
            command: command_of(command),
        },
        Body::Ack(instance, round) => told::Body::Ack {
            instance: instance.number(),
            round: round.number(),
        },
        Body::Decision(instance, command) => told::Body::Decision {
            instance: instance.number(),
            command: command_of(command),
        },
        Body::Request(command) => told::Body::Request {
            command: command_of(command),
        },
        Body::Nack(instance, round) => told::Body::Nack {
            instance: instance.number(),
            round: round.number(),
        },
        Body::Beat => told::Body::Beat,
        Body::Suspects(set) => told::Body::Suspects { set: set.bits() },
        Body::Ask(instance) => told::Body::Ask {
            instance: instance.number(),
        },
    }
}

fn command_of(command: &Command) -> told::SharedCommand {
    let op = match &command.op {
        Op::Claim(name, value) => told::Op::Claim {
            name: name.as_bytes().into(),
            value: value.as_bytes().into(),
        },
        Op::Update(name, value) => told::Op::Update {
            name: name.as_bytes().into(),
            value: value.as_bytes().into(),
        },
        Op::Release(name) => told::Op::Release {
            name: name.as_bytes().into(),
        },
        Op::Transfer(name, owner) => told::Op::Transfer {
            name: name.as_bytes().into(),
            owner: *owner,
        },
    };
    let request = told::RequestNo {
        client: command.request.client,
        seq: command.request.seq,
    };
    Rc::new(told::Command { request, op })
}
