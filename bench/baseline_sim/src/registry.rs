//! The registry of names, and the clients that wait for its replies.

use std::collections::btree_map::{BTreeMap, Entry, OccupiedEntry};
use std::collections::HashMap;

use crate::types::{Command, Op, Reply, RequestNo, Text};

const MAX_BOUND: usize = 4096;

/// Who has a name, and its value.
pub struct Holding {
    pub owner: u32,
    pub value: Text,
}

/// The bound names, and the reply to each request that was applied.
#[derive(Default)]
pub struct Registry {
    bindings: BTreeMap<Text, Holding>,
    replies: HashMap<RequestNo, Reply>,
}

impl Registry {
    /// Applies a command, unless its request was applied before.
    pub fn apply(&mut self, command: &Command) {
        if !self.replies.contains_key(&command.request) {
            let reply = self.reply_to(command.request.client, &command.op);
            self.replies.insert(command.request, reply);
        }
    }

    fn reply_to(&mut self, client: u32, op: &Op) -> Reply {
        match op {
            Op::Claim { name, value } => self.claim(client, name, value),
            Op::Update { name, value } => self.change(client, name, |mut held| {
                held.get_mut().value = value.clone();
                Reply::Updated
            }),
            Op::Release { name } => self.change(client, name, |held| {
                held.remove();
                Reply::Released
            }),
            Op::Transfer { name, owner } => self.change(client, name, |mut held| {
                held.get_mut().owner = *owner;
                Reply::Transferred
            }),
        }
    }

    fn claim(&mut self, client: u32, name: &Text, value: &Text) -> Reply {
        if let Some(held) = self.bindings.get(name) {
            return Reply::Taken(held.owner);
        }
        if self.bindings.len() >= MAX_BOUND {
            return Reply::Full;
        }
        self.bindings.insert(
            name.clone(),
            Holding {
                owner: client,
                value: value.clone(),
            },
        );
        Reply::Claimed
    }

    fn change(
        &mut self,
        client: u32,
        name: &Text,
        change: impl FnOnce(OccupiedEntry<Text, Holding>) -> Reply,
    ) -> Reply {
        match self.bindings.entry(name.clone()) {
            Entry::Vacant(_) => Reply::Unknown,
            Entry::Occupied(held) if held.get().owner != client => Reply::NotOwner,
            Entry::Occupied(held) => change(held),
        }
    }

    pub fn reply(&self, request: RequestNo) -> Option<Reply> {
        self.replies.get(&request).copied()
    }

    /// Who has a name, and its value.
    #[cfg(feature = "threads")]
    pub fn binding(&self, name: &[u8]) -> Option<&Holding> {
        self.bindings.get(name)
    }

    /// The bound names in byte order.
    pub fn bindings(&self) -> impl Iterator<Item = (&[u8], &Holding)> {
        self.bindings
            .iter()
            .map(|(name, holding)| (&**name, holding))
    }
}

/// The requests that wait for their acknowledgement, in order, each once.
#[derive(Default)]
pub struct Waiting {
    places: HashMap<RequestNo, u64>,
    due: BTreeMap<u64, RequestNo>,
    next: u64,
}

impl Waiting {
    pub fn contains(&self, request: RequestNo) -> bool {
        self.places.contains_key(&request)
    }

    /// The request waits behind the others, unless it waits already.
    pub fn push(&mut self, request: RequestNo) {
        let next = self.next;
        self.places.entry(request).or_insert(next);
        self.next += 1;
    }

    /// The request, if it waits, may be acknowledged.
    pub fn make_due(&mut self, request: RequestNo) {
        if let Some(&place) = self.places.get(&request) {
            self.due.insert(place, request);
        }
    }

    /// Takes out the oldest request that may be acknowledged.
    pub fn pop_due(&mut self) -> Option<RequestNo> {
        let (_, request) = self.due.pop_first()?;
        self.places.remove(&request);
        Some(request)
    }
}
