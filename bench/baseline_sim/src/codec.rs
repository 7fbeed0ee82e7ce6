//! Groups of facts and snapshots as bytes, big-endian, each value with one
//! spelling in versions 1 and 2.

use crate::promise::{OpenStanding, Promise, Standing};
use crate::types::{
    is_name, is_value, Command, Fact, Op, Place, RequestNo, Shared, SharedCommand, Text, GROUP,
    INSTANCES, LAST_ROUND, MAX_NODES,
};

/// A version of the bytes. What is written is of version 2.
#[derive(Clone, Copy, PartialEq, Eq)]
pub enum Version {
    One,
    Two,
}

impl Version {
    fn of(byte: u8) -> Option<Version> {
        match byte {
            1 => Some(Version::One),
            2 => Some(Version::Two),
            _ => None,
        }
    }

    fn longest_name(self) -> usize {
        match self {
            Version::One => 32,
            Version::Two => 64,
        }
    }

    fn instances(self) -> u32 {
        match self {
            Version::One => 65_536,
            Version::Two => INSTANCES,
        }
    }

    fn operations(self) -> u8 {
        match self {
            Version::One => 3,
            Version::Two => 4,
        }
    }
}

/// A snapshot.
pub struct Snapshot {
    pub version: Version,
    pub place: Place,
    pub epoch: u64,
    pub next: u64,
    pub promise: Promise,
}

fn put_u32(out: &mut Vec<u8>, number: u32) {
    out.extend_from_slice(&number.to_be_bytes());
}

fn put_u64(out: &mut Vec<u8>, number: u64) {
    out.extend_from_slice(&number.to_be_bytes());
}

fn put_text(out: &mut Vec<u8>, text: &[u8]) {
    out.push(text.len() as u8);
    out.extend_from_slice(text);
}

fn put_command(out: &mut Vec<u8>, command: &Command) {
    put_u32(out, command.request.client);
    put_u64(out, command.request.seq);
    let (kind, name) = match &command.op {
        Op::Claim { name, .. } => (1, name),
        Op::Update { name, .. } => (2, name),
        Op::Release { name } => (3, name),
        Op::Transfer { name, .. } => (4, name),
    };
    out.push(kind);
    put_text(out, name);
    match &command.op {
        Op::Claim { value, .. } | Op::Update { value, .. } => put_text(out, value),
        Op::Release { .. } => {}
        Op::Transfer { owner, .. } => put_u32(out, *owner),
    }
}

fn put_fact(out: &mut Vec<u8>, fact: &Fact) {
    let (kind, instance, command) = match fact {
        Fact::Enter {
            instance, command, ..
        } => (1, instance, command),
        Fact::Propose {
            instance, command, ..
        } => (2, instance, command),
        Fact::Adopt {
            instance, command, ..
        } => (3, instance, command),
        Fact::Decide { instance, command } => (4, instance, command),
    };
    out.push(kind);
    put_u32(out, *instance);
    match fact {
        Fact::Enter { round, stamp, .. } => {
            put_u32(out, *round);
            put_u32(out, *stamp);
        }
        Fact::Propose { round, .. } | Fact::Adopt { round, .. } => put_u32(out, *round),
        Fact::Decide { .. } => {}
    }
    put_command(out, command);
}

/// Spells a group: the number of its first fact, how many there are, the facts.
pub fn put_group<'a>(
    out: &mut Vec<u8>,
    first: u64,
    facts: impl ExactSizeIterator<Item = &'a Fact>,
) {
    put_u64(out, first);
    out.extend_from_slice(&(facts.len() as u16).to_be_bytes());
    for fact in facts {
        put_fact(out, fact);
    }
}

fn put_entry(out: &mut Vec<u8>, instance: u32, standing: &Standing) {
    put_u32(out, instance);
    match standing {
        Standing::Decided(command) => {
            out.push(1);
            put_command(out, command);
        }
        Standing::Open(open) => {
            out.push(2);
            put_u32(out, open.round);
            put_u32(out, open.stamp);
            put_command(out, &open.estimate);
            out.push(u8::from(open.proposal.is_some()));
            if let Some(proposal) = &open.proposal {
                put_command(out, proposal);
            }
        }
    }
}

/// Spells a snapshot of the facts before number `next`.
pub fn put_snapshot(out: &mut Vec<u8>, place: Place, epoch: u64, next: u64, promise: &Promise) {
    out.extend_from_slice(&[2, place.node, place.nodes]);
    put_u64(out, epoch);
    put_u64(out, next);
    put_u32(out, promise.named());
    for (instance, standing) in promise.entries() {
        put_entry(out, instance, standing);
    }
}

/// Reads fields from the front of bytes; None where one is cut short or holds
/// no lawful value.
struct Reader<'a> {
    rest: &'a [u8],
    version: Version,
}

impl<'a> Reader<'a> {
    fn bytes(&mut self, count: usize) -> Option<&'a [u8]> {
        let (field, rest) = self.rest.split_at_checked(count)?;
        self.rest = rest;
        Some(field)
    }

    fn array<const N: usize>(&mut self) -> Option<[u8; N]> {
        let (field, rest) = self.rest.split_first_chunk::<N>()?;
        self.rest = rest;
        Some(*field)
    }

    fn u8(&mut self) -> Option<u8> {
        self.array().map(|[byte]| byte)
    }

    fn u32(&mut self) -> Option<u32> {
        self.array().map(u32::from_be_bytes)
    }

    fn u64(&mut self) -> Option<u64> {
        self.array().map(u64::from_be_bytes)
    }

    fn text(&mut self, is_lawful: fn(&[u8]) -> bool) -> Option<Text> {
        let length = self.u8()?;
        let text = self.bytes(usize::from(length))?;
        is_lawful(text).then(|| text.into())
    }

    fn command(&mut self) -> Option<SharedCommand> {
        let request = RequestNo {
            client: self.u32()?,
            seq: self.u64()?,
        };
        let kind = self.u8().filter(|&kind| kind <= self.version.operations())?;
        let longest = self.version.longest_name();
        let name = self.text(is_name).filter(|name| name.len() <= longest)?;
        let op = match kind {
            1 => Op::Claim {
                name,
                value: self.text(is_value)?,
            },
            2 => Op::Update {
                name,
                value: self.text(is_value)?,
            },
            3 => Op::Release { name },
            4 => Op::Transfer {
                name,
                owner: self.u32()?,
            },
            _ => return None,
        };
        Some(Shared::new(Command { request, op }))
    }

    fn instance(&mut self) -> Option<u32> {
        let version = self.version;
        self.u32().filter(|&instance| instance < version.instances())
    }

    fn round(&mut self) -> Option<u32> {
        self.u32().filter(|round| (1..=LAST_ROUND).contains(round))
    }

    fn fact(&mut self) -> Option<Fact> {
        let kind = self.u8()?;
        let instance = self.instance()?;
        Some(match kind {
            1 => {
                let round = self.round()?;
                let stamp = self.u32().filter(|&stamp| stamp < round)?;
                Fact::Enter {
                    instance,
                    round,
                    stamp,
                    command: self.command()?,
                }
            }
            2 => Fact::Propose {
                instance,
                round: self.round()?,
                command: self.command()?,
            },
            3 => Fact::Adopt {
                instance,
                round: self.round()?,
                command: self.command()?,
            },
            4 => Fact::Decide {
                instance,
                command: self.command()?,
            },
            _ => return None,
        })
    }

    fn open(&mut self, place: Place) -> Option<OpenStanding> {
        let round = self.round()?;
        let stamp = self.u32().filter(|&stamp| stamp <= round)?;
        let estimate = self.command()?;
        let proposal = match self.u8()? {
            0 => None,
            1 if place.coordinates(round) => Some(self.command()?),
            _ => return None,
        };
        Some(OpenStanding {
            round,
            stamp,
            estimate,
            proposal,
        })
    }

    fn standing(&mut self, place: Place) -> Option<Standing> {
        match self.u8()? {
            1 => Some(Standing::Decided(self.command()?)),
            2 => Some(Standing::Open(self.open(place)?)),
            _ => None,
        }
    }

    fn place(&mut self) -> Option<Place> {
        let [version, node, nodes] = self.array()?;
        self.version = Version::of(version)?;
        let lawful = node < nodes && usize::from(nodes) <= MAX_NODES;
        lawful.then_some(Place { node, nodes })
    }

    fn promise(&mut self, place: Place, count: u32) -> Option<Promise> {
        let mut promise = Promise::default();
        for _ in 0..count {
            let ascends = |instance: &u32| *instance as usize >= promise.end();
            let instance = self.instance().filter(ascends)?;
            promise.set(instance, self.standing(place)?);
        }
        Some(promise)
    }

    fn end(&self) -> Option<()> {
        self.rest.is_empty().then_some(())
    }
}

/// Reads a group of this version that begins with fact `next`, and takes its
/// facts on where each fits. Answers how many there are.
pub fn take_group(
    version: Version,
    payload: &[u8],
    place: Place,
    next: u64,
    promise: &mut Promise,
) -> Option<u64> {
    let mut reader = Reader {
        rest: payload,
        version,
    };
    let first = reader.u64().filter(|&first| first == next)?;
    let count = u64::from(u16::from_be_bytes(reader.array()?));
    if !(1..=GROUP as u64).contains(&count) || first.checked_add(count).is_none() {
        return None;
    }
    for _ in 0..count {
        let fact = reader.fact()?;
        if !promise.fits(place, &fact) {
            return None;
        }
        promise.take_on(fact);
    }
    reader.end()?;
    Some(count)
}

/// Reads a snapshot.
pub fn read_snapshot(payload: &[u8]) -> Option<Snapshot> {
    let mut reader = Reader {
        rest: payload,
        version: Version::Two,
    };
    let place = reader.place()?;
    let epoch = reader.u64().filter(|&epoch| epoch >= 1)?;
    let next = reader.u64()?;
    let count = reader.u32().filter(|&count| count == 0 || next >= 1)?;
    let promise = reader.promise(place, count)?;
    reader.end()?;
    Some(Snapshot {
        version: reader.version,
        place,
        epoch,
        next,
        promise,
    })
}
