//! Messages as bytes in versions 1 and 2, as docs/FORMATS.md states them.

use super::types::*;

const VERSION: u8 = 2;

/// What a version of the bytes allows.
#[derive(Clone, Copy)]
struct Limits {
    longest_name: usize,
    instances: u32,
    operations: u8,
}

/// The limits of the version that a first byte names.
fn limits_of(version: u8) -> Option<Limits> {
    match version {
        1 => Some(Limits { longest_name: 32, instances: 65_536, operations: 3 }),
        VERSION => Some(Limits { longest_name: 64, instances: 1_048_576, operations: 4 }),
        _ => None,
    }
}

/// Bytes that are read from left to right.
struct Reader<'a> {
    all: &'a [u8],
    at: usize,
    limits: Limits,
}

type Read<T> = Result<T, Refusal>;

impl<'a> Reader<'a> {
    fn fault(&self) -> Refusal {
        Refusal::Malformed(self.at as u64)
    }

    fn take(&mut self, count: usize) -> Read<&'a [u8]> {
        let bytes = self.all.get(self.at..self.at + count).ok_or(self.fault())?;
        self.at += count;
        Ok(bytes)
    }

    fn array<const N: usize>(&mut self) -> Read<[u8; N]> {
        let mut bytes = [0; N];
        bytes.copy_from_slice(self.take(N)?);
        Ok(bytes)
    }

    fn u8(&mut self) -> Read<u8> {
        Ok(self.array::<1>()?[0])
    }

    fn u32(&mut self) -> Read<u32> {
        Ok(u32::from_be_bytes(self.array()?))
    }

    fn u64(&mut self) -> Read<u64> {
        Ok(u64::from_be_bytes(self.array()?))
    }

    fn instance(&mut self) -> Read<Instance> {
        let fault = self.fault();
        let number = self.u32()?;
        if number >= self.limits.instances {
            return Err(fault);
        }
        Instance::new(number).ok_or(fault)
    }

    fn round(&mut self) -> Read<Round> {
        let fault = self.fault();
        Round::new(self.u32()?).ok_or(fault)
    }

    fn node(&mut self, nodes: u8) -> Read<NodeId> {
        let fault = self.fault();
        NodeId::new(nodes, self.u8()?).ok_or(fault)
    }

    fn text(&mut self, least: usize, most: usize) -> Read<(&'a [u8], Refusal)> {
        let fault = self.fault();
        let count = self.u8()? as usize;
        if count < least || count > most {
            return Err(fault);
        }
        let fault = self.fault();
        Ok((self.take(count)?, fault))
    }

    fn name(&mut self) -> Read<Name> {
        let (bytes, fault) = self.text(1, self.limits.longest_name)?;
        Name::new(bytes).map_err(|_| fault)
    }

    fn value(&mut self) -> Read<Value> {
        let (bytes, fault) = self.text(0, 64)?;
        Value::new(bytes).map_err(|_| fault)
    }

    fn op(&mut self) -> Read<Op> {
        let fault = self.fault();
        let kind = self.u8()?;
        if kind == 0 || kind > self.limits.operations {
            return Err(fault);
        }
        let name = self.name()?;
        Ok(match kind {
            1 => Op::Claim(name, self.value()?),
            2 => Op::Update(name, self.value()?),
            3 => Op::Release(name),
            _ => Op::Transfer(name, self.u32()?),
        })
    }

    fn command(&mut self) -> Read<Command> {
        let client = self.u32()?;
        let seq = self.u64()?;
        let op = self.op()?;
        Ok(Command { request: RequestNo { client, seq }, op })
    }

    fn estimate(&mut self) -> Read<Estimate> {
        let round = self.round()?;
        let fault = self.fault();
        let stamp = self.u32()?;
        if stamp >= round.number() {
            return Err(fault);
        }
        let command = self.command()?;
        Estimate::new(round, stamp, command).ok_or(fault)
    }

    fn body(&mut self, nodes: u8) -> Read<Body> {
        let fault = self.fault();
        Ok(match self.u8()? {
            1 => Body::Estimate(self.instance()?, self.estimate()?),
            2 => Body::Proposal(self.instance()?, self.round()?, self.command()?),
            3 => Body::Ack(self.instance()?, self.round()?),
            4 => Body::Decision(self.instance()?, self.command()?),
            5 => Body::Request(self.command()?),
            6 => Body::Nack(self.instance()?, self.round()?),
            7 => Body::Beat,
            8 => {
                let fault = self.fault();
                Body::Suspects(NodeSet::from_bits(nodes, self.u8()?).ok_or(fault)?)
            }
            9 => Body::Ask(self.instance()?),
            _ => return Err(fault),
        })
    }

    fn message(&mut self, nodes: u8) -> Read<Message> {
        let fault = self.fault();
        self.limits = limits_of(self.u8()?).ok_or(fault)?;
        let from = self.node(nodes)?;
        let to = self.node(nodes)?;
        let body = self.body(nodes)?;
        Ok(Message { from, to, body })
    }
}

pub fn decode(nodes: u8, bytes: &[u8]) -> Result<Message, Refusal> {
    let limits = limits_of(VERSION).expect("the version that is written is one");
    let mut reader = Reader { all: bytes, at: 0, limits };
    let message = reader.message(nodes)?;
    if reader.at < bytes.len() {
        return Err(reader.fault());
    }
    Ok(message)
}

fn put_text(out: &mut Vec<u8>, text: &[u8]) {
    out.push(text.len() as u8);
    out.extend_from_slice(text);
}

fn put_command(out: &mut Vec<u8>, command: &Command) {
    out.extend_from_slice(&command.request.client.to_be_bytes());
    out.extend_from_slice(&command.request.seq.to_be_bytes());
    match &command.op {
        Op::Claim(name, value) => {
            out.push(1);
            put_text(out, name.as_bytes());
            put_text(out, value.as_bytes());
        }
        Op::Update(name, value) => {
            out.push(2);
            put_text(out, name.as_bytes());
            put_text(out, value.as_bytes());
        }
        Op::Release(name) => {
            out.push(3);
            put_text(out, name.as_bytes());
        }
        Op::Transfer(name, owner) => {
            out.push(4);
            put_text(out, name.as_bytes());
            out.extend_from_slice(&owner.to_be_bytes());
        }
    }
}

fn put_about(out: &mut Vec<u8>, kind: u8, instance: Instance) {
    out.push(kind);
    out.extend_from_slice(&instance.number().to_be_bytes());
}

fn put_round(out: &mut Vec<u8>, round: Round) {
    out.extend_from_slice(&round.number().to_be_bytes());
}

fn put_body(out: &mut Vec<u8>, body: &Body) {
    match body {
        Body::Estimate(instance, estimate) => {
            put_about(out, 1, *instance);
            put_round(out, estimate.round);
            out.extend_from_slice(&estimate.stamp.to_be_bytes());
            put_command(out, &estimate.command);
        }
        Body::Proposal(instance, round, command) => {
            put_about(out, 2, *instance);
            put_round(out, *round);
            put_command(out, command);
        }
        Body::Ack(instance, round) => {
            put_about(out, 3, *instance);
            put_round(out, *round);
        }
        Body::Decision(instance, command) => {
            put_about(out, 4, *instance);
            put_command(out, command);
        }
        Body::Request(command) => {
            out.push(5);
            put_command(out, command);
        }
        Body::Nack(instance, round) => {
            put_about(out, 6, *instance);
            put_round(out, *round);
        }
        Body::Beat => out.push(7),
        Body::Suspects(set) => {
            out.push(8);
            out.push(set.bits());
        }
        Body::Ask(instance) => put_about(out, 9, *instance),
    }
}

pub fn encode(message: &Message) -> Vec<u8> {
    let mut out = Vec::with_capacity(64);
    out.push(VERSION);
    out.push(message.from.index());
    out.push(message.to.index());
    put_body(&mut out, &message.body);
    out
}
