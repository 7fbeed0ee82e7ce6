//! The text of a script, and of the answers to it.

use std::fmt;

use crate::files::Failure;
use crate::schedule::{read_event, read_node, Action};
use crate::types::{is_name, NodeId, Reply, RequestNo, Shared, SharedCommand, Text};

/// What a client asks of its node.
pub enum Line {
    Submit(NodeId, SharedCommand),
    Look(NodeId, Text),
}

impl Line {
    pub fn node(&self) -> NodeId {
        match self {
            Line::Submit(node, _) | Line::Look(node, _) => *node,
        }
    }
}

/// Reads a script for so many nodes.
pub fn read(text: &[u8], nodes: u8) -> Result<Vec<Line>, Failure> {
    let mut lines = Vec::new();
    for line in text.split_inclusive(|&byte| byte == b'\n') {
        let fault = Failure::BadEvent(lines.len() + 1);
        let line = line
            .strip_suffix(b"\n")
            .and_then(|line| read_line(line, nodes));
        lines.push(line.ok_or(fault)?);
    }
    Ok(lines)
}

fn read_line(line: &[u8], nodes: u8) -> Option<Line> {
    if line.starts_with(b"submit ") {
        let event = read_event(line, nodes)?;
        return match event.action {
            Action::Submit(command) => Some(Line::Submit(event.node, Shared::new(command))),
            _ => None,
        };
    }
    let mut words = line.strip_prefix(b"look ")?.split(|&byte| byte == b' ');
    let node = read_node(words.next()?, nodes)?;
    let name = words.next().filter(|word| is_name(word))?;
    words
        .next()
        .is_none()
        .then(|| Line::Look(node, name.into()))
}

/// What a client got.
pub enum Answer {
    Acknowledged(NodeId, RequestNo, Reply),
    Unacknowledged(NodeId, RequestNo),
    Free(NodeId, Text),
    Bound(NodeId, Text, u32, Text),
}

impl fmt::Display for Answer {
    fn fmt(&self, f: &mut fmt::Formatter) -> fmt::Result {
        match self {
            Answer::Acknowledged(node, request, reply) => {
                write!(f, "ack {node} {}.{} ", request.client, request.seq)?;
                put_reply(f, *reply)
            }
            Answer::Unacknowledged(node, request) => {
                write!(f, "none {node} {}.{}", request.client, request.seq)
            }
            Answer::Free(node, name) => {
                write!(f, "look {node} {} free", String::from_utf8_lossy(name))
            }
            Answer::Bound(node, name, owner, value) => {
                let (name, value) = (
                    String::from_utf8_lossy(name),
                    String::from_utf8_lossy(value),
                );
                write!(f, "look {node} {name} {owner}:{value}")
            }
        }
    }
}

fn put_reply(f: &mut fmt::Formatter, reply: Reply) -> fmt::Result {
    match reply {
        Reply::Claimed => write!(f, "claimed"),
        Reply::Updated => write!(f, "updated"),
        Reply::Released => write!(f, "released"),
        Reply::Transferred => write!(f, "transferred"),
        Reply::Taken(owner) => write!(f, "taken {owner}"),
        Reply::Unknown => write!(f, "unknown"),
        Reply::NotOwner => write!(f, "notowner"),
        Reply::Full => write!(f, "full"),
    }
}
