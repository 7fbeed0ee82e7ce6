//! Frames in the areas of a disk: the jobs that write them, and what an
//! opening reads.

use crate::codec::{put_snapshot, read_snapshot, take_group, Version};
use crate::disk::Disk;
use crate::promise::Promise;
use crate::types::Place;

const OPEN_GATE: u8 = 0xA5;
const CLOSED_GATE: u8 = 0;

/// Where a journal appends: the active area, its last gate, its epoch.
#[derive(Clone, Copy)]
pub struct Journal {
    pub area: usize,
    pub gate: usize,
    pub epoch: u64,
}

/// The length of a payload, the payload, and the closed gate behind it.
pub fn frame_body(put_payload: impl FnOnce(&mut Vec<u8>)) -> Vec<u8> {
    let mut body = vec![0; 4];
    put_payload(&mut body);
    let length = (body.len() - 4) as u32;
    body[..4].copy_from_slice(&length.to_be_bytes());
    body.push(CLOSED_GATE);
    body
}

/// The device call that is due in a job.
#[derive(Clone, Copy)]
enum Stage {
    CloseGate,
    SyncClosed,
    WriteBody,
    SyncBody,
    OpenGate,
    SyncGate,
}

/// Writes a frame behind a gate, one device call at a time: body, sync, gate,
/// sync; before these, where the gate may stand open, its closing and a sync.
pub struct FrameJob {
    area: usize,
    gate: usize,
    body: Vec<u8>,
    stage: Stage,
}

impl FrameJob {
    /// A frame behind the last gate of an area.
    pub fn append(area: usize, gate: usize, body: Vec<u8>) -> Self {
        FrameJob {
            area,
            gate,
            body,
            stage: Stage::WriteBody,
        }
    }

    /// The first frame of an area that is written anew.
    pub fn rewrite(disk: &Disk, area: usize, body: Vec<u8>) -> Self {
        let must_close = matches!(disk.read(area).first(), None | Some(&OPEN_GATE));
        let stage = if must_close {
            Stage::CloseGate
        } else {
            Stage::WriteBody
        };
        FrameJob {
            area,
            gate: 0,
            body,
            stage,
        }
    }

    /// The first frame of area 0 of a fresh disk.
    pub fn format(disk: &Disk, place: Place) -> Self {
        let body = frame_body(|out| put_snapshot(out, place, 1, 0, &Promise::default()));
        FrameJob::rewrite(disk, 0, body)
    }

    pub fn area(&self) -> usize {
        self.area
    }

    /// The gate behind the frame.
    pub fn next_gate(&self) -> usize {
        self.gate + self.body.len()
    }

    /// Where and what the due call writes; None where it syncs.
    fn due_write(&self) -> Option<(usize, &[u8])> {
        match self.stage {
            Stage::CloseGate => Some((self.gate, &[CLOSED_GATE])),
            Stage::WriteBody => Some((self.gate + 1, &self.body)),
            Stage::OpenGate => Some((self.gate, &[OPEN_GATE])),
            Stage::SyncClosed | Stage::SyncBody | Stage::SyncGate => None,
        }
    }

    /// Makes the due call; answers whether it was the last.
    pub fn step(&mut self, disk: &mut Disk) -> bool {
        match self.due_write() {
            Some((at, bytes)) => disk.write(self.area, at, bytes),
            None => disk.sync(),
        }
        self.stage = match self.stage {
            Stage::CloseGate => Stage::SyncClosed,
            Stage::SyncClosed => Stage::WriteBody,
            Stage::WriteBody => Stage::SyncBody,
            Stage::SyncBody => Stage::OpenGate,
            Stage::OpenGate => Stage::SyncGate,
            Stage::SyncGate => return true,
        };
        false
    }

    /// Whether the due call is the last.
    pub fn is_last(&self) -> bool {
        matches!(self.stage, Stage::SyncGate)
    }

    /// The due call finds no memory; answers whether it fails by that, as a
    /// write does that makes its area longer.
    pub fn starve(&self, disk: &mut Disk) -> bool {
        match self.due_write() {
            Some((at, bytes)) if at + bytes.len() > disk.read(self.area).len() => {
                disk.starve_write(self.area, at, bytes.len());
                true
            }
            _ => false,
        }
    }

    /// The due call fails.
    pub fn fail(&self, disk: &mut Disk, fill: &[u8]) {
        if let Some((at, bytes)) = self.due_write() {
            disk.fail_write(self.area, at, bytes, fill);
        }
    }
}

/// Behind the gate at this offset of an area is no frame that fits.
pub struct Damage {
    pub area: usize,
    pub offset: usize,
}

/// What an area holds, whose node its snapshot names.
pub struct Content {
    pub version: Version,
    pub place: Place,
    pub journal: Journal,
    pub next: u64,
    pub promise: Promise,
}

impl Content {
    /// What a freshly formatted disk holds, whose only frame ends at this gate.
    pub fn formatted(place: Place, gate: usize) -> Self {
        let journal = Journal {
            area: 0,
            gate,
            epoch: 1,
        };
        Content {
            version: Version::Two,
            place,
            journal,
            next: 0,
            promise: Promise::default(),
        }
    }

    /// Reads the groups behind the snapshot.
    fn read_groups(&mut self, bytes: &[u8]) -> Result<(), Damage> {
        while bytes.get(self.journal.gate) == Some(&OPEN_GATE) {
            let length = self.read_group(bytes).ok_or(Damage {
                area: self.journal.area,
                offset: self.journal.gate,
            })?;
            self.journal.gate += 5 + length;
        }
        Ok(())
    }

    /// Reads the group behind the gate; answers the length of its payload.
    fn read_group(&mut self, bytes: &[u8]) -> Option<usize> {
        let payload = payload_behind(bytes, self.journal.gate)?;
        self.next += take_group(
            self.version,
            payload,
            self.place,
            self.next,
            &mut self.promise,
        )?;
        Some(payload.len())
    }
}

/// The payload of the frame behind a gate, where it is whole with its next gate.
fn payload_behind(bytes: &[u8], gate: usize) -> Option<&[u8]> {
    let (length, rest) = bytes[gate + 1..].split_first_chunk::<4>()?;
    let length = u32::from_be_bytes(*length) as usize;
    (length < rest.len()).then(|| &rest[..length])
}

/// Reads the first frame of an area, which has to be of this node where one is
/// named; None where the area isn't formatted.
fn read_front(owner: Option<Place>, area: usize, bytes: &[u8]) -> Result<Option<Content>, Damage> {
    if bytes.len() < 2 || bytes[0] != OPEN_GATE {
        return Ok(None);
    }
    let content = read_snapshot_frame(area, bytes)
        .filter(|content| owner.is_none_or(|owner| owner == content.place));
    content.map(Some).ok_or(Damage { area, offset: 0 })
}

fn read_snapshot_frame(area: usize, bytes: &[u8]) -> Option<Content> {
    let payload = payload_behind(bytes, 0)?;
    let snapshot = read_snapshot(payload)?;
    let journal = Journal {
        area,
        gate: 5 + payload.len(),
        epoch: snapshot.epoch,
    };
    Some(Content {
        version: snapshot.version,
        place: snapshot.place,
        journal,
        next: snapshot.next,
        promise: snapshot.promise,
    })
}

/// Reads both areas, of this node where one is named: the first frames, and all
/// frames of the one of greatest epoch. None is an area that isn't formatted.
pub fn read_areas(owner: Option<Place>, areas: [&[u8]; 2]) -> Result<[Option<Content>; 2], Damage> {
    let mut contents = [
        read_front(owner, 0, areas[0])?,
        read_front(owner, 1, areas[1])?,
    ];
    if let [Some(a), Some(b)] = &contents {
        if a.journal.epoch == b.journal.epoch {
            return Err(Damage { area: 1, offset: 0 });
        }
    }
    if let Some(active) = greatest(contents.iter_mut().flatten()) {
        active.read_groups(areas[active.journal.area])?;
    }
    Ok(contents)
}

/// What the active area holds of this node; None where no area is formatted.
pub fn read_active(owner: Place, areas: [&[u8]; 2]) -> Result<Option<Content>, Damage> {
    let contents = read_areas(Some(owner), areas)?;
    Ok(contents
        .into_iter()
        .flatten()
        .max_by_key(|content| content.journal.epoch))
}

fn greatest<'a>(contents: impl Iterator<Item = &'a mut Content>) -> Option<&'a mut Content> {
    contents.max_by_key(|content| content.journal.epoch)
}
