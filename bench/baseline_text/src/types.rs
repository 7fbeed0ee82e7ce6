//! The types of `rr_types` and `rr_text`, laid out as there.

pub enum Refusal {
    BadNodes,
    BadEvent(u64),
}

#[derive(Clone, Copy)]
pub struct Short {
    len: usize,
    bytes: [u8; 64],
}

impl Short {
    pub fn new(text: &[u8]) -> Option<Short> {
        let mut bytes = [0; 64];
        bytes.get_mut(..text.len())?.copy_from_slice(text);
        Some(Short { len: text.len(), bytes })
    }

    pub fn as_bytes(&self) -> &[u8] {
        &self.bytes[..self.len]
    }
}

#[derive(Clone, Copy)]
pub struct Name(pub Short);

#[derive(Clone, Copy)]
pub struct Value(pub Short);

#[derive(Clone, Copy)]
pub struct RequestNo {
    pub client: u32,
    pub seq: u64,
}

#[derive(Clone, Copy)]
pub enum Op {
    Claim(Name, Value),
    Update(Name, Value),
    Release(Name),
    Transfer(Name, u32),
}

#[derive(Clone, Copy)]
pub struct Command {
    pub request: RequestNo,
    pub op: Op,
}

#[derive(Clone, Copy)]
pub struct NodeId(pub u8);

#[derive(Clone, Copy)]
pub struct NodeSet(pub u8);

#[derive(Clone, Copy)]
pub struct Instance(pub u32);

#[derive(Clone, Copy)]
pub struct Round(pub u32);

pub enum Event {
    Submit { node: NodeId, command: Command },
    Hear { node: NodeId, message: u32 },
    Suspect { node: NodeId, set: NodeSet },
    Tick { node: NodeId },
    Advance { node: NodeId },
    Take { node: NodeId },
    Device { node: NodeId },
    Fail { node: NodeId, fill: Vec<u8> },
    Mark { node: NodeId },
    Send { node: NodeId },
    Ack { node: NodeId },
    Snap { node: NodeId },
    Crash { node: NodeId, cut_0: u32, cut_1: u32, fill: Vec<u8> },
    Restart { node: NodeId },
}

pub struct Schedule {
    pub nodes: u8,
    pub events: Vec<Event>,
}

#[derive(Clone, Copy)]
pub struct Estimate {
    pub round: u32,
    pub stamp: u32,
    pub command: Command,
}

#[derive(Clone, Copy)]
pub enum Body {
    Estimate(Instance, Estimate),
    Proposal(Instance, Round, Command),
    Ack(Instance, Round),
    Decision(Instance, Command),
    Request(Command),
    Nack(Instance, Round),
    Beat,
    Suspects(NodeSet),
    Ask(Instance),
}

#[derive(Clone, Copy)]
pub struct Message {
    pub from: NodeId,
    pub to: NodeId,
    pub body: Body,
}

#[derive(Clone, Copy)]
pub enum Reply {
    Claimed,
    Taken(u32),
}

pub enum ReportLine {
    Send { number: u64, message: Message },
    Ack { node: NodeId, request: RequestNo, reply: Reply },
}

pub struct Report {
    pub lines: Vec<ReportLine>,
    pub decided: Vec<Command>,
}
