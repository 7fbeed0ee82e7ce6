//! The types of messages, field by field those of `rr_types`.

#[derive(Clone, Copy, Debug, PartialEq, Eq)]
pub enum Refusal {
    BadNodes,
    BadName,
    BadValue,
    ListFull,
    RoundsOut,
    Malformed(u64),
}

/// At most 64 bytes, kept in place, with zeros behind them.
#[derive(Clone, Copy, Debug)]
pub struct Short {
    len: usize,
    bytes: [u8; 64],
}

impl Short {
    fn new(text: &[u8]) -> Short {
        let mut bytes = [0u8; 64];
        let len = text.len();
        bytes[..len].copy_from_slice(text);
        Short { len, bytes }
    }

    fn as_bytes(&self) -> &[u8] {
        &self.bytes[..self.len]
    }
}

#[derive(Clone, Copy, Debug)]
pub struct Name(Short);

impl Name {
    pub fn new(bytes: &[u8]) -> Result<Name, Refusal> {
        let is_lawful = |byte: &u8| matches!(byte, b'a'..=b'z' | b'0'..=b'9' | b'-');
        if bytes.is_empty() || bytes.len() > 64 || !bytes.iter().all(is_lawful) {
            return Err(Refusal::BadName);
        }
        Ok(Name(Short::new(bytes)))
    }

    pub fn as_bytes(&self) -> &[u8] {
        self.0.as_bytes()
    }
}

#[derive(Clone, Copy, Debug)]
pub struct Value(Short);

impl Value {
    pub fn new(bytes: &[u8]) -> Result<Value, Refusal> {
        if bytes.len() > 64 || !bytes.iter().all(|byte| matches!(byte, 0x21..=0x7E)) {
            return Err(Refusal::BadValue);
        }
        Ok(Value(Short::new(bytes)))
    }

    pub fn as_bytes(&self) -> &[u8] {
        self.0.as_bytes()
    }
}

#[derive(Clone, Copy, Debug)]
pub struct RequestNo {
    pub client: u32,
    pub seq: u64,
}

#[derive(Clone, Copy, Debug)]
pub enum Op {
    Claim(Name, Value),
    Update(Name, Value),
    Release(Name),
    Transfer(Name, u32),
}

#[derive(Clone, Copy, Debug)]
pub struct Command {
    pub request: RequestNo,
    pub op: Op,
}

#[derive(Clone, Copy, Debug)]
pub struct Instance(u32);

impl Instance {
    pub fn new(number: u32) -> Option<Instance> {
        (number < 1_048_576).then_some(Instance(number))
    }

    pub fn number(self) -> u32 {
        self.0
    }
}

#[derive(Clone, Copy, Debug)]
pub struct Round(u32);

impl Round {
    pub fn new(number: u32) -> Option<Round> {
        (1..=2_147_483_647).contains(&number).then_some(Round(number))
    }

    pub fn number(self) -> u32 {
        self.0
    }
}

#[derive(Clone, Copy, Debug)]
pub struct Estimate {
    pub round: Round,
    pub stamp: u32,
    pub command: Command,
}

impl Estimate {
    pub fn new(round: Round, stamp: u32, command: Command) -> Option<Estimate> {
        (stamp < round.number()).then_some(Estimate { round, stamp, command })
    }
}

#[derive(Clone, Copy, Debug)]
pub struct NodeId(u8);

impl NodeId {
    pub fn new(nodes: u8, index: u8) -> Option<NodeId> {
        (index < nodes).then_some(NodeId(index))
    }

    pub fn index(self) -> u8 {
        self.0
    }
}

/// A set of nodes: bit p for node p.
#[derive(Clone, Copy, Debug)]
pub struct NodeSet(u8);

impl NodeSet {
    pub fn from_bits(nodes: u8, bits: u8) -> Option<NodeSet> {
        (bits < 1 << nodes).then_some(NodeSet(bits))
    }

    pub fn bits(self) -> u8 {
        self.0
    }
}

#[derive(Clone, Copy, Debug)]
pub enum Body {
    Estimate(Instance, Estimate),
    Proposal(Instance, Round, Command),
    Ack(Instance, Round),
    Decision(Instance, Command),
    Request(Command),
    Nack(Instance, Round),
    Beat,
    Suspects(NodeSet),
    Ask(Instance),
}

#[derive(Clone, Copy, Debug)]
pub struct Message {
    pub from: NodeId,
    pub to: NodeId,
    pub body: Body,
}
