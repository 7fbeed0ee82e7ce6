//! The thread of a node, and that of its flusher.

use std::io;
use std::sync::mpsc::{Receiver, RecvTimeoutError, Sender, SyncSender, TrySendError};
use std::sync::RwLock;
use std::time::Duration;

use crate::codec::put_group;
use crate::consensus::Core;
use crate::files::Store;
use crate::journal::frame_body;
use crate::promise::Standing;
use crate::registry::Registry;
use crate::types::{Message, Reply, RequestNo, SharedCommand};

/// A node ticks that had nothing to do for so long.
const TICK: Duration = Duration::from_secs(1);

/// What comes to a node.
pub enum Input {
    Submit(SharedCommand),
    Hear(Message),
    Synced,
    Failed(io::Error),
    Stop,
}

/// What a client hears of a request: the reply, or none where its submit was refused.
pub type Receipt = (RequestNo, Option<Reply>);

/// What a node's thread owns.
pub struct Node<'run> {
    pub core: Core,
    pub inputs: Receiver<Input>,
    pub peers: Vec<SyncSender<Input>>,
    pub groups: Sender<Vec<u8>>,
    pub receipts: Sender<Receipt>,
    pub published: &'run RwLock<Registry>,
    /// How many decided commands are published.
    pub shown: u32,
}

impl Node<'_> {
    /// Runs the node until it is told to stop, or its disk fails.
    pub fn run(mut self) -> io::Result<()> {
        loop {
            self.publish();
            self.act();
            match self.inputs.recv_timeout(TICK) {
                Err(RecvTimeoutError::Timeout) => self.core.tick(),
                Err(RecvTimeoutError::Disconnected) => return Ok(()),
                Ok(input) => {
                    let mut next = Some(input);
                    while let Some(input) = next {
                        if !self.take(input)? {
                            return Ok(());
                        }
                        next = self.inputs.try_recv().ok();
                    }
                }
            }
        }
    }

    /// Takes an input; answers whether the node goes on.
    fn take(&mut self, input: Input) -> io::Result<bool> {
        match input {
            Input::Stop => return Ok(false),
            Input::Failed(error) => return Err(error),
            Input::Hear(message) => self.core.hear(&message),
            Input::Synced => self.core.mark(),
            Input::Submit(command) => {
                let request = command.request;
                if self.core.submit(command).is_err() {
                    let _ = self.receipts.send((request, None));
                }
            }
        }
        Ok(true)
    }

    /// Publishes what is decided.
    fn publish(&mut self) {
        if self.shown == self.core.prefix() {
            return;
        }
        let mut registry = self.published.write().unwrap();
        while self.shown < self.core.prefix() {
            if let Some(Standing::Decided(command)) = self.core.marked().0.at(self.shown) {
                registry.apply(command);
            }
            self.shown += 1;
        }
    }

    /// Flushes, sends and acknowledges what can be.
    fn act(&mut self) {
        if !self.core.has_running() {
            let group = self.core.next_group();
            let body = group.map(|(first, facts)| frame_body(|out| put_group(out, first, facts)));
            if let Some(body) = body {
                self.core.take_group();
                let _ = self.groups.send(body);
            }
        }
        while let Some(message) = self.core.next_message() {
            let to = usize::from(message.to);
            // A message is lost where the inbox is full.
            if let Err(TrySendError::Disconnected(_)) =
                self.peers[to].try_send(Input::Hear(message))
            {
                break;
            }
        }
        while let Some((request, reply)) = self.core.next_ack() {
            let _ = self.receipts.send((request, Some(reply)));
        }
    }
}

/// Flushes the groups of a node.
pub fn flush_all(mut store: Store, groups: Receiver<Vec<u8>>, node: SyncSender<Input>) {
    for body in groups {
        let input = match store.append(&body) {
            Ok(()) => Input::Synced,
            Err(error) => Input::Failed(error),
        };
        if node.send(input).is_err() {
            break;
        }
    }
}
