//! Texts and bytes that a seed alters.

mod bytes;
mod lines;

use crate::messages::{types, wire};
use crate::stock::Stock;

pub use bytes::altered_areas;
pub use lines::altered_lines;

/// A text or bytes to be read, and for a script among how many nodes.
pub enum Mutant {
    Schedule(Vec<u8>),
    Tape(Vec<u8>),
    Script(u8, Vec<u8>),
    Message(Vec<u8>),
    Areas([Vec<u8>; 2]),
}

/// Numbers that follow from a seed: the generator SplitMix64.
pub struct Draw {
    state: u64,
}

impl Draw {
    pub fn of_seed(seed: u64) -> Draw {
        Draw { state: seed }
    }

    fn word(&mut self) -> u64 {
        self.state = self.state.wrapping_add(0x9E37_79B9_7F4A_7C15);
        let mut word = self.state;
        word = (word ^ (word >> 30)).wrapping_mul(0xBF58_476D_1CE4_E5B9);
        word = (word ^ (word >> 27)).wrapping_mul(0x94D0_49BB_1331_11EB);
        word ^ (word >> 31)
    }

    /// A number below `bound`, which is at least 1.
    pub fn below(&mut self, bound: usize) -> usize {
        (self.word() % bound as u64) as usize
    }

    pub fn byte(&mut self) -> u8 {
        self.word() as u8
    }

    /// One of these, of which there is at least one.
    pub fn of<'a, T>(&mut self, all: &'a [T]) -> &'a T {
        &all[self.below(all.len())]
    }

    /// Whether it happens in so many of a hundred cases.
    pub fn happens(&mut self, percent: usize) -> bool {
        self.below(100) < percent
    }
}

/// The mutant of a seed: of ten, four are schedules, three areas, two
/// messages, and one is a tape or a script.
pub fn mutant(stock: &Stock, seed: u64) -> Mutant {
    let mut draw = Draw::of_seed(seed);
    let kind = seed % 10;
    // Numbers of neighbouring seeds have nothing in common from the second on.
    draw.word();
    match kind {
        0..=3 => Mutant::Schedule(altered_lines(&mut draw, &stock.schedules)),
        4..=6 => Mutant::Areas(altered_areas(&mut draw, &stock.areas)),
        7 | 8 => Mutant::Message(message(&mut draw)),
        _ if draw.happens(50) => Mutant::Tape(altered_lines(&mut draw, &stock.tapes)),
        _ => {
            let nodes = 1 + draw.below(7) as u8;
            Mutant::Script(nodes, altered_lines(&mut draw, &stock.scripts))
        }
    }
}

/// A message, of which a fifth have the byte of version 1, and half are altered.
fn message(draw: &mut Draw) -> Vec<u8> {
    let mut bytes = wire::encode(&lawful_message(draw).expect("its parts are in their ranges"));
    if draw.happens(20) {
        bytes[0] = 1;
    }
    if draw.happens(50) {
        for _ in 0..1 + draw.below(3) {
            bytes::alter(draw, &mut bytes);
        }
    }
    bytes
}

fn lawful_message(draw: &mut Draw) -> Option<types::Message> {
    use types::{Body, Estimate, Instance, NodeId, NodeSet, Round};
    let instance = Instance::new(*draw.of(&[0, 1, 255, 65_535, 65_536, 1_048_575]))?;
    let number = *draw.of(&[1, 2, 3, 256, 2_147_483_647]);
    let round = Round::new(number)?;
    let command = command(draw)?;
    let stamp = draw.below(number as usize) as u32;
    let body = match draw.below(9) {
        0 => Body::Estimate(instance, Estimate::new(round, stamp, command)?),
        1 => Body::Proposal(instance, round, command),
        2 => Body::Ack(instance, round),
        3 => Body::Decision(instance, command),
        4 => Body::Request(command),
        5 => Body::Nack(instance, round),
        6 => Body::Beat,
        7 => Body::Suspects(NodeSet::from_bits(7, draw.below(128) as u8)?),
        _ => Body::Ask(instance),
    };
    Some(types::Message {
        from: NodeId::new(7, draw.below(7) as u8)?,
        to: NodeId::new(7, draw.below(7) as u8)?,
        body,
    })
}

fn command(draw: &mut Draw) -> Option<types::Command> {
    use types::{Command, Name, Op, RequestNo, Value};
    let lengths = [1, 2, 32, 33, 63, 64];
    let name = Name::new(&vec![*draw.of(b"az09-"); *draw.of(&lengths)]).ok()?;
    let value = Value::new(&vec![*draw.of(b"!~a:"); *draw.of(&[0, 1, 63, 64])]).ok()?;
    let client = *draw.of(&[0, 7, 4_294_967_295]);
    let op = match draw.below(4) {
        0 => Op::Claim(name, value),
        1 => Op::Update(name, value),
        2 => Op::Release(name),
        _ => Op::Transfer(name, client),
    };
    let request = RequestNo {
        client,
        seq: *draw.of(&[0, 1, u64::MAX]),
    };
    Some(Command { request, op })
}
