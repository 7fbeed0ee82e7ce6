//! The vocabulary: requests, commands, facts, messages, replies and refusals.

/// How many instances there are.
pub const INSTANCES: u32 = 1_048_576;
/// The last round of an instance.
pub const LAST_ROUND: u32 = 2_147_483_647;
/// How many undecided instances are open at once.
pub const WINDOW: usize = 8;
/// How many facts a group holds at most.
pub const GROUP: usize = 64;
/// How many nodes there are at most.
pub const MAX_NODES: usize = 7;
/// Areas end below this offset.
pub const AREA_LIMIT: usize = 1 << 32;

/// A node's number.
pub type NodeId = u8;
/// A set of nodes: bit p for node p.
pub type NodeSet = u8;

/// Which node this is, and of how many.
#[derive(Clone, Copy, PartialEq, Eq, Debug)]
pub struct Place {
    pub node: NodeId,
    pub nodes: u8,
}

impl Place {
    /// The coordinator of a round.
    pub fn coordinator(self, round: u32) -> NodeId {
        (round % u32::from(self.nodes)) as NodeId
    }

    /// Whether this node coordinates the round.
    pub fn coordinates(self, round: u32) -> bool {
        self.coordinator(round) == self.node
    }

    /// Whether so many are more than half of the nodes.
    pub fn is_majority(self, count: u32) -> bool {
        count > u32::from(self.nodes) / 2
    }

    /// All nodes, ascending.
    pub fn everyone(self) -> impl Iterator<Item = NodeId> {
        0..self.nodes
    }

    /// All nodes but this one, ascending.
    pub fn others(self) -> impl Iterator<Item = NodeId> {
        (0..self.nodes).filter(move |&q| q != self.node)
    }
}

/// A client's request: the client and its own number for it.
#[derive(Clone, Copy, PartialEq, Eq, Hash, Debug)]
pub struct RequestNo {
    pub client: u32,
    pub seq: u64,
}

/// The bytes of a name or a value.
pub type Text = Box<[u8]>;

/// An operation on a name.
#[derive(Clone, PartialEq, Eq, Debug)]
pub enum Op<T = Text> {
    Claim { name: T, value: T },
    Update { name: T, value: T },
    Release { name: T },
    Transfer { name: T, owner: u32 },
}

impl Op {
    /// The same operation by borrowed bytes.
    pub fn view(&self) -> Op<&[u8]> {
        match self {
            Op::Claim { name, value } => Op::Claim { name, value },
            Op::Update { name, value } => Op::Update { name, value },
            Op::Release { name } => Op::Release { name },
            Op::Transfer { name, owner } => Op::Transfer {
                name,
                owner: *owner,
            },
        }
    }
}

/// A request with its operation.
#[derive(Clone, PartialEq, Eq, Debug)]
pub struct Command<T = Text> {
    pub request: RequestNo,
    pub op: Op<T>,
}

impl Command {
    /// The same command by borrowed bytes.
    pub fn view(&self) -> Command<&[u8]> {
        Command {
            request: self.request,
            op: self.op.view(),
        }
    }
}

#[cfg(not(feature = "threads"))]
pub use std::rc::Rc as Shared;
/// Nodes in threads send commands to one another.
#[cfg(feature = "threads")]
pub use std::sync::Arc as Shared;

/// A command that facts, messages and tables share.
pub type SharedCommand = Shared<Command>;

/// Whether a name may have this byte.
pub fn is_name_byte(byte: &u8) -> bool {
    matches!(byte, b'a'..=b'z' | b'0'..=b'9' | b'-')
}

/// Whether a value may have this byte.
pub fn is_value_byte(byte: &u8) -> bool {
    matches!(byte, 0x21..=0x7E)
}

/// Whether the bytes are a name.
pub fn is_name(bytes: &[u8]) -> bool {
    (1..=64).contains(&bytes.len()) && bytes.iter().all(is_name_byte)
}

/// Whether the bytes are a value.
pub fn is_value(bytes: &[u8]) -> bool {
    bytes.len() <= 64 && bytes.iter().all(is_value_byte)
}

/// What a node writes down before it speaks of it.
#[derive(Clone, Debug)]
pub enum Fact {
    Enter {
        instance: u32,
        round: u32,
        stamp: u32,
        command: SharedCommand,
    },
    Propose {
        instance: u32,
        round: u32,
        command: SharedCommand,
    },
    Adopt {
        instance: u32,
        round: u32,
        command: SharedCommand,
    },
    Decide {
        instance: u32,
        command: SharedCommand,
    },
}

/// What a message says.
#[derive(Clone, Debug)]
pub enum Body {
    Estimate {
        instance: u32,
        round: u32,
        stamp: u32,
        command: SharedCommand,
    },
    Proposal {
        instance: u32,
        round: u32,
        command: SharedCommand,
    },
    Ack {
        instance: u32,
        round: u32,
    },
    Decision {
        instance: u32,
        command: SharedCommand,
    },
    Request {
        command: SharedCommand,
    },
    Nack {
        instance: u32,
        round: u32,
    },
    Beat,
    Suspects {
        set: NodeSet,
    },
    Ask {
        instance: u32,
    },
}

/// A message from one node to another.
#[derive(Clone, Debug)]
pub struct Message {
    pub from: NodeId,
    pub to: NodeId,
    pub body: Body,
}

/// The registry's answer to a command.
#[derive(Clone, Copy, PartialEq, Eq, Debug)]
pub enum Reply {
    Claimed,
    Updated,
    Released,
    Transferred,
    Taken(u32),
    Unknown,
    NotOwner,
    Full,
}

/// Why an event is refused.
#[derive(Clone, Copy, PartialEq, Eq, Debug)]
pub enum Refusal {
    OutOfMemory,
    Device,
    Damaged,
    Failed,
    Down,
    ListFull,
    RoundsOut,
    Busy,
    TooLarge,
}
