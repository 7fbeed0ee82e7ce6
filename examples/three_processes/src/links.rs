//! Messages between processes: each with its length before it, in two bytes, over TCP on this machine. Who sends isn't checked.

use crate::wires::{Wire, Wish};
use std::net::{Ipv4Addr, SocketAddr, TcpStream};
use std::time::Duration;

/// How long a connection on this machine takes at most to be made.
const SOON: Duration = Duration::from_millis(20);

/// The way to a node. Without a connection what is sent is lost: the node says it again.
pub struct Link {
    port: u16,
    wire: Option<Wire>,
}

impl Link {
    pub fn new(port: u16) -> Link {
        Link { port, wire: None }
    }

    /// Connects, where there is no connection.
    pub fn connect(&mut self) {
        if self.wire.is_none() {
            let address = SocketAddr::from((Ipv4Addr::LOCALHOST, self.port));
            self.wire = TcpStream::connect_timeout(&address, SOON).and_then(Wire::new).ok();
        }
    }

    pub fn send(&mut self, bytes: &[u8]) {
        if let (Some(wire), Ok(len)) = (&mut self.wire, u16::try_from(bytes.len())) {
            wire.put(&len.to_be_bytes());
            wire.put(bytes);
        }
    }

    pub fn flush(&mut self) {
        if let Some(wire) = &mut self.wire {
            wire.flush();
            if wire.is_broken {
                self.wire = None;
            }
        }
    }

    pub fn wish(&self) -> Option<Wish> {
        self.wire.as_ref().map(Wire::wish)
    }

    /// Nothing is said on a link but by this process. So where something comes the other one has ended.
    pub fn look(&mut self, room: &mut [u8]) {
        if let Some(wire) = &mut self.wire {
            wire.read(room);
            if wire.has_ended {
                self.wire = None;
            }
        }
    }
}

/// The messages that have come whole.
pub fn messages(wire: &mut Wire) -> Vec<Vec<u8>> {
    let mut messages = Vec::new();
    let mut at = 0;
    while let Some((len, rest)) = wire.came[at..].split_first_chunk() {
        let len = usize::from(u16::from_be_bytes(*len));
        if rest.len() < len {
            break;
        }
        messages.push(rest[..len].to_vec());
        at += 2 + len;
    }
    wire.came.drain(..at);
    messages
}
