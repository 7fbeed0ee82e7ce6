//! The folder of a node: its opening, and the flushes of its groups.

use std::fs::{self, File, OpenOptions, TryLockError};
use std::os::unix::fs::FileExt;
use std::path::Path;
use std::{fmt, io};

use crate::codec::put_snapshot;
use crate::journal::{frame_body, read_active, Content};
use crate::promise::Promise;
use crate::types::Place;

/// Why a run ends without answers.
pub enum Failure {
    BadEvent(usize),
    Damaged { area: usize, offset: usize },
    Locked,
    Device(io::Error),
}

impl Failure {
    pub fn status(&self) -> u8 {
        match self {
            Failure::BadEvent(_) => 3,
            Failure::Damaged { .. } => 4,
            Failure::Locked | Failure::Device(_) => 5,
        }
    }
}

impl From<io::Error> for Failure {
    fn from(error: io::Error) -> Self {
        Failure::Device(error)
    }
}

impl fmt::Display for Failure {
    fn fmt(&self, f: &mut fmt::Formatter) -> fmt::Result {
        match self {
            Failure::BadEvent(line) => write!(f, "14 BadEvent {line}"),
            Failure::Damaged { area, offset } => write!(f, "3 Damaged {area} {offset}"),
            Failure::Locked => write!(f, "another program has locked the folder"),
            Failure::Device(error) => write!(f, "2 Device: {error}"),
        }
    }
}

/// The areas of a node as files, and the lock on their folder.
pub struct Store {
    _lock: File,
    areas: [File; 2],
    area: usize,
    gate: usize,
}

impl Store {
    /// Writes a frame behind the last gate: the body, a sync, the gate, a sync.
    pub fn append(&mut self, body: &[u8]) -> io::Result<()> {
        let file = &self.areas[self.area];
        file.write_all_at(body, self.gate as u64 + 1)?;
        file.sync_data()?;
        file.write_all_at(&[0xA5], self.gate as u64)?;
        file.sync_data()?;
        self.gate += body.len();
        Ok(())
    }
}

/// Opens the folders of so many nodes, ascending, with what each node is promised.
pub fn open_folders(nodes: u8, folder: &Path) -> Result<Vec<(Store, Content)>, Failure> {
    let mut stores = Vec::new();
    for node in 0..nodes {
        let place = Place { node, nodes };
        stores.push(open(place, &folder.join(node.to_string()))?);
    }
    File::open(folder)?.sync_all()?;
    Ok(stores)
}

fn open(place: Place, folder: &Path) -> Result<(Store, Content), Failure> {
    fs::create_dir_all(folder)?;
    let lock = File::open(folder)?;
    lock.try_lock().map_err(|error| match error {
        TryLockError::WouldBlock => Failure::Locked,
        TryLockError::Error(error) => Failure::Device(error),
    })?;
    let open = |name: &str| {
        let mut options = OpenOptions::new();
        options.read(true).write(true).create(true).truncate(false);
        options.open(folder.join(name))
    };
    let mut store = Store {
        _lock: lock,
        areas: [open("a0")?, open("a1")?],
        area: 0,
        gate: 0,
    };
    File::open(folder)?.sync_all()?;
    let content = store.read(place, folder)?;
    Ok((store, content))
}

impl Store {
    /// Reads what the files hold, and formats area 0 where that is nothing.
    fn read(&mut self, place: Place, folder: &Path) -> Result<Content, Failure> {
        let bytes = [fs::read(folder.join("a0"))?, fs::read(folder.join("a1"))?];
        // What the reads gave may never have reached the device.
        for (file, bytes) in self.areas.iter().zip(&bytes) {
            file.write_all_at(bytes, 0)?;
            file.sync_data()?;
        }
        match read_active(place, [&bytes[0], &bytes[1]]) {
            Err(damage) => Err(Failure::Damaged {
                area: damage.area,
                offset: damage.offset,
            }),
            Ok(Some(content)) => {
                self.area = content.journal.area;
                self.gate = content.journal.gate;
                Ok(content)
            }
            Ok(None) => {
                if matches!(bytes[0].first(), None | Some(0xA5)) {
                    self.areas[0].write_all_at(&[0], 0)?;
                    self.areas[0].sync_data()?;
                }
                self.append(&frame_body(|out| {
                    put_snapshot(out, place, 1, 0, &Promise::default())
                }))?;
                Ok(Content::formatted(place, self.gate))
            }
        }
    }
}
