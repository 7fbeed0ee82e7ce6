//! Connections that never wait, and the call of the system that waits for all of them.

use std::io::{self, ErrorKind, Read, Write};
use std::net::TcpStream;
use std::os::fd::{AsRawFd, RawFd};
use std::os::raw::{c_int, c_short, c_ulong};
use std::time::Duration;

/// So many bytes wait at most for one that doesn't read: then its connection is given up.
const MOST: usize = 1 << 24;

/// A connection, with what has come and wasn't taken yet, and what is still to leave.
pub struct Wire {
    stream: TcpStream,
    pub came: Vec<u8>,
    leaves: Vec<u8>,
    /// The other side says nothing more.
    pub has_ended: bool,
    /// Nothing more can leave.
    pub is_broken: bool,
}

impl Wire {
    pub fn new(stream: TcpStream) -> io::Result<Wire> {
        stream.set_nonblocking(true)?;
        stream.set_nodelay(true)?;
        Ok(Wire { stream, came: Vec::new(), leaves: Vec::new(), has_ended: false, is_broken: false })
    }

    /// Takes what has come.
    pub fn read(&mut self, room: &mut [u8]) {
        match self.stream.read(room) {
            Ok(0) => self.has_ended = true,
            Ok(count) => self.came.extend_from_slice(&room[..count]),
            Err(error) if is_early(&error) => (),
            Err(_) => (self.has_ended, self.is_broken) = (true, true),
        }
    }

    /// These bytes are to leave.
    pub fn put(&mut self, bytes: &[u8]) {
        self.leaves.extend_from_slice(bytes);
        self.is_broken |= self.leaves.len() > MOST;
    }

    /// Sends what the other side has room for.
    pub fn flush(&mut self) {
        while !self.is_broken && !self.leaves.is_empty() {
            match self.stream.write(&self.leaves) {
                Ok(count) => drop(self.leaves.drain(..count)),
                Err(error) if is_early(&error) => return,
                Err(_) => self.is_broken = true,
            }
        }
    }

    /// Whether all has left.
    pub fn is_empty(&self) -> bool {
        self.leaves.is_empty()
    }

    /// What it waits for.
    pub fn wish(&self) -> Wish {
        let reads = if self.has_ended { 0 } else { READ };
        Wish::of(&self.stream, reads | if self.is_empty() { 0 } else { WRITE })
    }
}

fn is_early(error: &io::Error) -> bool {
    matches!(error.kind(), ErrorKind::WouldBlock | ErrorKind::Interrupted)
}

const READ: c_short = 1;
const WRITE: c_short = 4;

/// What is waited for at a file of the system: the struct `pollfd`.
#[repr(C)]
pub struct Wish {
    file: RawFd,
    wanted: c_short,
    found: c_short,
}

impl Wish {
    fn of(file: &impl AsRawFd, wanted: c_short) -> Wish {
        Wish { file: file.as_raw_fd(), wanted, found: 0 }
    }

    /// Something comes, or somebody.
    pub fn to_read(file: &impl AsRawFd) -> Wish {
        Wish::of(file, READ)
    }

    /// Whether there is anything.
    pub fn is_met(&self) -> bool {
        self.found != 0
    }
}

unsafe extern "C" {
    fn poll(wishes: *mut Wish, count: c_ulong, millis: c_int) -> c_int;
}

/// Waits until a wish is met, or for so long.
pub fn wait(wishes: &mut [Wish], most: Duration) -> io::Result<()> {
    // Rounded up: a wait of no time would be made again and again.
    let millis = most.as_micros().div_ceil(1000) as c_int;
    // Safety: the struct is the system's, and so many stand there.
    if unsafe { poll(wishes.as_mut_ptr(), wishes.len() as c_ulong, millis) } >= 0 {
        return Ok(());
    }
    let error = io::Error::last_os_error();
    if is_early(&error) { Ok(()) } else { Err(error) }
}
