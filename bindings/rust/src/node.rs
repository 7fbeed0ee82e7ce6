//! A node.

use crate::raw::{self, Handle};
use crate::{Refusal, Reply};
use std::marker::PhantomData;
use std::ptr;

/// The version of the library's interface.
pub fn version() -> u32 {
    // Safety: it takes nothing.
    unsafe { raw::rr_version() }
}

/// A command of a client.
#[derive(Clone, Copy, Debug, PartialEq, Eq)]
pub enum Op<'a> {
    /// Binds a free name to the client, with a value.
    Claim(&'a [u8], &'a [u8]),
    /// Sets the value of a name that the client has.
    Update(&'a [u8], &'a [u8]),
    /// Frees a name that the client has.
    Release(&'a [u8]),
    /// Gives a name that the client has to another client.
    Transfer(&'a [u8], u32),
}

/// A write that is due: these bytes at a place of an area, 0 or 1, which is to be synced then.
#[derive(Debug)]
pub struct Due<'a> {
    pub area: usize,
    pub at: u64,
    pub bytes: &'a [u8],
}

/// A message for another node.
#[derive(Debug)]
pub struct Message<'a> {
    pub to: u8,
    pub bytes: &'a [u8],
}

/// A request that was submitted here and is decided, with the registry's reply.
#[derive(Clone, Copy, Debug, PartialEq, Eq)]
pub struct Ack {
    pub client: u32,
    pub seq: u64,
    pub reply: Reply,
}

/// Who has a name, and its value.
#[derive(Clone, Debug, PartialEq, Eq)]
pub struct Holding {
    pub owner: u32,
    pub value: Vec<u8>,
}

/// A bound name.
#[derive(Clone, Debug, PartialEq, Eq)]
pub struct Binding {
    pub name: Vec<u8>,
    pub holding: Holding,
}

/// A command of the decided list: its request, the reply to that, and the name that it is of.
#[derive(Clone, Debug, PartialEq, Eq)]
pub struct Decided {
    pub ack: Ack,
    pub name: Vec<u8>,
}

/// How a node stands.
#[derive(Clone, Copy, Debug, PartialEq, Eq)]
pub struct Status {
    /// How many commands are decided and safe here.
    pub decided: u64,
    /// How many of its facts are safe.
    pub facts: u64,
    /// The nodes that it suspects to be down: bit k is for node k.
    pub suspects: u8,
    pub nodes: u8,
    pub node: u8,
    pub is_up: bool,
}

/// A node. It stays on the thread that opened it.
///
/// ```compile_fail
/// fn give<T: Send>(_: T) {}
/// give(rr::Node::open(1, 0, &[], &[], true).unwrap());
/// ```
pub struct Node {
    handle: Handle,
    room: Vec<u8>,
    stays: PhantomData<*mut ()>,
}

impl Node {
    /// Opens one of `nodes` nodes, numbered from 0, over the bytes of its two areas, which were synced before they were read. A new node's
    /// areas are empty, and no others: a node whose files vanished is refused.
    ///
    /// # Errors
    /// `BadNodes`, `Damaged`, `TooLarge`, `OutOfMemory`.
    ///
    /// ```
    /// assert_eq!(rr::Node::open(3, 0, &[], &[], false).err(), Some(rr::Refusal::Damaged));
    /// ```
    pub fn open(nodes: u8, node: u8, first: &[u8], second: &[u8], is_new: bool) -> Result<Node, Refusal> {
        let mut handle = Handle { is_open: 0, at: ptr::null_mut() };
        // Safety: a slice's pointer is never null, and the handle is closed.
        let said = unsafe {
            raw::rr_open(&mut handle, nodes.into(), node.into(), first.as_ptr(), first.len(), second.as_ptr(), second.len(), is_new.into())
        };
        let node = Node { handle, room: vec![0; 4096], stays: PhantomData };
        Refusal::of(said).map(|()| node)
    }

    /// Whether it is up, and no longer opens.
    pub fn is_up(&mut self) -> bool {
        // Safety: here and below the handle is this node's own, and no other call has it.
        unsafe { raw::rr_is_up(&mut self.handle) == 1 }
    }

    /// The write that is due. Make it, sync its area, and say so by [`Node::done`].
    pub fn due(&mut self) -> Result<Option<Due<'_>>, Refusal> {
        let mut call = raw::Call::default();
        loop {
            Refusal::of(unsafe { raw::rr_due(&mut self.handle, &mut call, self.room.as_mut_ptr(), self.room.len()) })?;
            if call.kind == 0 {
                return Ok(None);
            }
            if call.len <= self.room.len() {
                return Ok(Some(Due { area: call.area as usize, at: call.at, bytes: &self.room[..call.len] }));
            }
            self.room.resize(call.len, 0);
        }
    }

    /// The due write was made and synced, or it couldn't be: then the node is down.
    pub fn done(&mut self, is_done: bool) -> Result<(), Refusal> {
        Refusal::of(unsafe { raw::rr_done(&mut self.handle, is_done.into()) })
    }

    /// A client asks for a command, under a number of its own. The same number again is the same request, and done once.
    ///
    /// # Errors
    /// `BadName`, `BadValue`, `Down`, `ListFull`, `TooLarge`, `OutOfMemory`. Nothing has changed then.
    pub fn submit(&mut self, client: u32, seq: u64, op: Op<'_>) -> Result<(), Refusal> {
        let (kind, name, value, owner): (u32, &[u8], &[u8], u32) = match op {
            Op::Claim(name, value) => (1, name, value, 0),
            Op::Update(name, value) => (2, name, value, 0),
            Op::Release(name) => (3, name, &[], 0),
            Op::Transfer(name, owner) => (4, name, &[], owner),
        };
        Refusal::of(unsafe {
            raw::rr_submit(&mut self.handle, client, seq, kind, name.as_ptr(), name.len(), value.as_ptr(), value.len(), owner)
        })
    }

    /// A message came, as these bytes.
    pub fn hear(&mut self, bytes: &[u8]) -> Result<(), Refusal> {
        Refusal::of(unsafe { raw::rr_hear(&mut self.handle, bytes.as_ptr(), bytes.len()) })
    }

    /// A tick of the host's clock, every 50 milliseconds or so.
    pub fn tick(&mut self) -> Result<(), Refusal> {
        Refusal::of(unsafe { raw::rr_tick(&mut self.handle) })
    }

    /// These nodes are suspected to be down, and no others: bit k is for node k.
    pub fn suspect(&mut self, bits: u8) -> Result<(), Refusal> {
        Refusal::of(unsafe { raw::rr_suspect(&mut self.handle, bits.into()) })
    }

    /// Begins to write a snapshot to the other area.
    pub fn snapshot(&mut self) -> Result<(), Refusal> {
        Refusal::of(unsafe { raw::rr_snapshot(&mut self.handle) })
    }

    /// The oldest message that may leave. The node hears by itself what it says to itself.
    pub fn next_message(&mut self) -> Result<Option<Message<'_>>, Refusal> {
        let mut message = raw::Message::default();
        loop {
            Refusal::of(unsafe { raw::rr_next_message(&mut self.handle, &mut message, self.room.as_mut_ptr(), self.room.len()) })?;
            match message.kind {
                0 => return Ok(None),
                1 => return Ok(Some(Message { to: message.to as u8, bytes: &self.room[..message.len] })),
                _ => (),
            }
        }
    }

    /// The oldest request that was submitted here and is decided.
    pub fn next_ack(&mut self) -> Result<Option<Ack>, Refusal> {
        let mut ack = raw::Ack::default();
        Refusal::of(unsafe { raw::rr_next_ack(&mut self.handle, &mut ack) })?;
        Ok(acknowledged(&ack))
    }

    /// Who has a name, by what is decided and safe here.
    pub fn look(&mut self, name: &[u8]) -> Result<Option<Holding>, Refusal> {
        let mut holding = raw::Holding::default();
        let mut out = [0; 64];
        Refusal::of(unsafe { raw::rr_look(&mut self.handle, name.as_ptr(), name.len(), &mut holding, out.as_mut_ptr(), out.len()) })?;
        Ok((holding.is_bound == 1).then(|| Holding { owner: holding.owner, value: out[..holding.len].to_vec() }))
    }

    /// The bound names in byte order. Each is looked up by its place, so this is for some thousands.
    pub fn list(&mut self) -> Result<Vec<Binding>, Refusal> {
        let mut bindings = Vec::new();
        while let Some(binding) = self.bound(bindings.len())? {
            bindings.push(binding);
        }
        Ok(bindings)
    }

    /// The bound name at a place, from 0 in byte order; none behind the last.
    pub fn bound(&mut self, place: usize) -> Result<Option<Binding>, Refusal> {
        let mut binding = raw::Binding::default();
        let (mut name, mut out) = ([0; 64], [0; 64]);
        Refusal::of(unsafe {
            raw::rr_bound(&mut self.handle, place, &mut binding, name.as_mut_ptr(), name.len(), out.as_mut_ptr(), out.len())
        })?;
        Ok((binding.is_bound == 1).then(|| Binding {
            name: name[..binding.name_len].to_vec(),
            holding: Holding { owner: binding.owner, value: out[..binding.len].to_vec() },
        }))
    }

    /// How it stands.
    pub fn status(&mut self) -> Result<Status, Refusal> {
        let mut status = raw::Standing::default();
        Refusal::of(unsafe { raw::rr_status(&mut self.handle, &mut status) })?;
        Ok(Status {
            decided: status.decided,
            facts: status.facts,
            suspects: status.suspects as u8,
            nodes: status.nodes as u8,
            node: status.node as u8,
            is_up: status.is_up == 1,
        })
    }

    /// The command at a place of the decided list, from 0; none behind its end.
    pub fn decided(&mut self, place: usize) -> Result<Option<Decided>, Refusal> {
        let mut ack = raw::Ack::default();
        let (mut out, mut len) = ([0; 64], 0);
        Refusal::of(unsafe { raw::rr_decided(&mut self.handle, place, &mut ack, out.as_mut_ptr(), out.len(), &mut len) })?;
        Ok(acknowledged(&ack).map(|ack| Decided { ack, name: out[..len].to_vec() }))
    }

    /// The first place of the decided list, from one on, whose command is of this name; none where there isn't one yet.
    pub fn watch(&mut self, from: usize, name: &[u8]) -> Result<Option<usize>, Refusal> {
        let mut place = 0;
        Refusal::of(unsafe { raw::rr_watch(&mut self.handle, from, name.as_ptr(), name.len(), &mut place) })?;
        Ok((place < self.status()?.decided as usize).then_some(place))
    }
}

impl Drop for Node {
    fn drop(&mut self) {
        let given = self.handle;
        self.handle = Handle { is_open: 0, at: ptr::null_mut() };
        // Safety: the node is given away once.
        unsafe { raw::rr_close_handle(given) }
    }
}

fn acknowledged(ack: &raw::Ack) -> Option<Ack> {
    let reply = Reply::of(ack.reply, ack.owner)?;
    Some(Ack { client: ack.client, seq: ack.seq, reply })
}
