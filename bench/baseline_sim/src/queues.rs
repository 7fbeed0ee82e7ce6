//! Commands that wait for an instance, and messages that wait to leave.

use std::collections::{BTreeMap, HashMap, VecDeque};

use crate::types::{Message, RequestNo, SharedCommand};

/// Commands that wait for an instance, in order of arrival, one a request.
#[derive(Default)]
pub struct Pool {
    commands: BTreeMap<u64, SharedCommand>,
    places: HashMap<RequestNo, u64>,
    next: u64,
}

impl Pool {
    pub fn contains(&self, request: RequestNo) -> bool {
        self.places.contains_key(&request)
    }

    pub fn push(&mut self, command: SharedCommand) {
        self.places.insert(command.request, self.next);
        self.commands.insert(self.next, command);
        self.next += 1;
    }

    pub fn remove(&mut self, request: RequestNo) {
        if let Some(place) = self.places.remove(&request) {
            self.commands.remove(&place);
        }
    }

    pub fn iter(&self) -> impl Iterator<Item = &SharedCommand> {
        self.commands.values()
    }
}

/// Messages that a node owes, in order. One that is backed by a fact leaves
/// only once the fact is marked.
#[derive(Default)]
pub struct Outbox {
    /// May leave since they were owed.
    free: VecDeque<(u64, Message)>,
    /// May leave since their facts were marked.
    released: BTreeMap<u64, Message>,
    /// May not leave yet, by the facts that back them.
    held: BTreeMap<u64, Vec<(u64, Message)>>,
    next: u64,
}

impl Outbox {
    /// Owes a message that may leave.
    pub fn push_free(&mut self, message: Message) {
        self.free.push_back((self.next, message));
        self.next += 1;
    }

    /// Owes a message whose fact isn't marked yet.
    pub fn push_held(&mut self, fact: u64, message: Message) {
        self.held
            .entry(fact)
            .or_default()
            .push((self.next, message));
        self.next += 1;
    }

    /// All facts below `marked_end` are marked.
    pub fn release(&mut self, marked_end: u64) {
        while let Some(entry) = self.held.first_entry() {
            if *entry.key() >= marked_end {
                break;
            }
            self.released.extend(entry.remove());
        }
    }

    /// Takes out the oldest message that may leave.
    pub fn pop(&mut self) -> Option<Message> {
        let free = self.free.front().map(|(place, _)| *place);
        let released = self.released.first_key_value().map(|(place, _)| *place);
        match (free, released) {
            (Some(free), Some(released)) if released < free => self.pop_released(),
            (Some(_), _) => self.free.pop_front().map(|(_, message)| message),
            (None, _) => self.pop_released(),
        }
    }

    fn pop_released(&mut self) -> Option<Message> {
        self.released.pop_first().map(|(_, message)| message)
    }
}
