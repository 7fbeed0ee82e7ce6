//! One node of a Maroonburin cluster, for a program with its own network, disk and clock.
//!
//! A node makes no call of its own. It asks for one write at a time, and goes on once it is told that the write is synced. What it says to others
//! and to clients can't be had before the facts behind it are. `serve` does all that is due, by what a [`Host`] does:
//!
//! ```
//! use rr::{Ack, Host, Node, Op, Reply, serve};
//!
//! /// A host whose areas are in memory, which writes to nobody.
//! #[derive(Default)]
//! struct Memory { areas: [Vec<u8>; 2], acks: Vec<Ack> }
//!
//! impl Host for Memory {
//!     fn write(&mut self, area: usize, at: u64, bytes: &[u8]) -> bool {
//!         let end = at as usize + bytes.len();
//!         let len = self.areas[area].len().max(end);
//!         self.areas[area].resize(len, 0);
//!         self.areas[area][at as usize..end].copy_from_slice(bytes);
//!         true
//!     }
//!     fn send(&mut self, _to: u8, _bytes: &[u8]) {}
//!     fn answer(&mut self, ack: Ack) { self.acks.push(ack) }
//! }
//!
//! # fn main() -> Result<(), rr::Refusal> {
//! let mut host = Memory::default();
//! let mut node = Node::open(1, 0, &[], &[], true)?;
//! serve(&mut node, &mut host)?;
//! node.submit(7, 1, Op::Claim(b"lamp", b"blue"))?;
//! serve(&mut node, &mut host)?;
//! assert_eq!(host.acks[0].reply, Reply::Claimed);
//! assert_eq!(node.look(b"lamp")?.unwrap().value, b"blue");
//! // What was acknowledged is there behind a crash.
//! drop(node);
//! let mut node = Node::open(1, 0, &host.areas[0], &host.areas[1], false)?;
//! assert_eq!(node.look(b"lamp")?.unwrap().owner, 7);
//! # Ok(()) }
//! ```

mod node;
mod raw;
mod refusal;
mod serving;

pub use node::{Ack, Binding, Decided, Due, Holding, Message, Node, Op, Status, version};
pub use refusal::{Refusal, Reply};
pub use serving::{Host, serve};
