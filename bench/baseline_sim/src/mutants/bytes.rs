//! Bytes, altered in a few places; areas, altered or made anew.

use std::rc::Rc;

use super::Draw;
use crate::codec::{put_group, put_snapshot};
use crate::promise::Promise;
use crate::types::{Command, Fact, Op, Place, RequestNo, SharedCommand};

const OPEN: u8 = 0xA5;
const BYTES: [u8; 14] = [0, 1, 2, 3, 4, 5, 7, 8, 64, 65, OPEN, 0x7F, 0x80, 0xFF];

/// Sets, turns, adds or takes away a byte, or cuts the rest off.
pub fn alter(draw: &mut Draw, bytes: &mut Vec<u8>) {
    let at = draw.below(bytes.len() + 1);
    let other = if draw.happens(50) {
        *draw.of(&BYTES)
    } else {
        draw.byte()
    };
    let turned = 1 << draw.below(8);
    match (draw.below(10), bytes.get_mut(at)) {
        (0..=3, Some(byte)) => *byte = other,
        (4..=6, Some(byte)) => *byte ^= turned,
        (7, Some(_)) => drop(bytes.remove(at)),
        (8, Some(_)) => bytes.truncate(at),
        _ => bytes.insert(at, other),
    }
}

/// Areas of the stock behind some edits, or areas of groups that are drawn.
pub fn altered_areas(draw: &mut Draw, stock: &[[Vec<u8>; 2]]) -> [Vec<u8>; 2] {
    let mut areas = if draw.happens(50) {
        draw.of(stock).clone()
    } else {
        drawn_areas(draw)
    };
    for _ in 0..draw.below(3) {
        match draw.below(8) {
            0 => areas.swap(0, 1),
            1 => areas[1] = areas[0].clone(),
            2 => areas[draw.below(2)].clear(),
            _ => {
                let area = draw.below(2);
                alter(draw, &mut areas[area]);
            }
        }
    }
    areas
}

/// A snapshot and groups of a node that have the right numbers. Their facts
/// mostly fit, since there are few instances, rounds and commands. A fifth of
/// the snapshots have the byte of version 1.
fn drawn_areas(draw: &mut Draw) -> [Vec<u8>; 2] {
    let nodes = 1 + draw.below(3) as u8;
    let place = Place {
        node: draw.below(usize::from(nodes)) as u8,
        nodes,
    };
    let mut area = vec![OPEN];
    let (epoch, mut next) = (1 + draw.below(3) as u64, 0);
    let mut promise = Promise::default();
    let mut head = Vec::new();
    put_snapshot(&mut head, place, epoch, next, &promise);
    age(draw, &mut head);
    put_frame(&mut area, &head);
    for _ in 0..draw.below(8) {
        let facts = facts(draw, place, &mut promise);
        let mut group = Vec::new();
        put_group(&mut group, next, facts.iter());
        next += facts.len() as u64;
        put_frame(&mut area, &group);
    }
    *area.last_mut().expect("a gate") = 0;
    let mut other = Vec::new();
    if draw.happens(50) {
        let mut snapshot = Vec::new();
        put_snapshot(&mut snapshot, place, epoch + 1, next, &promise);
        age(draw, &mut snapshot);
        other.push(OPEN);
        put_frame(&mut other, &snapshot);
        *other.last_mut().expect("a gate") = 0;
    }
    [area, other]
}

/// Says of one snapshot in five that it is of version 1.
fn age(draw: &mut Draw, snapshot: &mut [u8]) {
    if draw.happens(20) {
        snapshot[0] = 1;
    }
}

/// Length and payload behind a gate, and the next gate, which is open.
fn put_frame(area: &mut Vec<u8>, payload: &[u8]) {
    area.extend_from_slice(&(payload.len() as u32).to_be_bytes());
    area.extend_from_slice(payload);
    area.push(OPEN);
}

/// One to four facts. Where one doesn't fit it mostly is drawn again.
fn facts(draw: &mut Draw, place: Place, promise: &mut Promise) -> Vec<Fact> {
    let mut facts = Vec::new();
    for _ in 0..1 + draw.below(4) {
        let mut fact = fact(draw);
        for _ in 0..40 {
            if promise.fits(place, &fact) || draw.happens(1) {
                break;
            }
            fact = self::fact(draw);
        }
        if promise.fits(place, &fact) {
            promise.take_on(fact.clone());
        }
        facts.push(fact);
    }
    facts
}

fn fact(draw: &mut Draw) -> Fact {
    let instance = draw.below(4) as u32;
    let round = 1 + draw.below(5) as u32;
    let stamp = draw.below(round as usize) as u32;
    let command = command(draw);
    match draw.below(4) {
        0 => Fact::Enter {
            instance,
            round,
            stamp,
            command,
        },
        1 => Fact::Propose {
            instance,
            round,
            command,
        },
        2 => Fact::Adopt {
            instance,
            round,
            command,
        },
        _ => Fact::Decide { instance, command },
    }
}

fn command(draw: &mut Draw) -> SharedCommand {
    let name = [*draw.of(b"ab")].as_slice().into();
    let value: &[u8] = if draw.happens(50) { b"x" } else { b"" };
    let op = match draw.below(3) {
        0 => Op::Release { name },
        1 => Op::Transfer { name, owner: 8 },
        _ => Op::Claim {
            name,
            value: value.into(),
        },
    };
    let request = RequestNo {
        client: 7,
        seq: draw.below(3) as u64,
    };
    Rc::new(Command { request, op })
}
