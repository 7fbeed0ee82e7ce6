//! The loop of a host.

use crate::{Ack, Node, Refusal};

/// What a node needs of its host.
pub trait Host {
    /// Writes these bytes at a place of an area, 0 or 1, and syncs the area. Whether both were done: then no crash takes them away.
    fn write(&mut self, area: usize, at: u64, bytes: &[u8]) -> bool;

    /// Sends these bytes to a node. They may be lost, come late or come twice, but they aren't altered.
    fn send(&mut self, to: u8, bytes: &[u8]);

    /// A request that was submitted here is decided.
    fn answer(&mut self, ack: Ack);
}

/// Does all that is due: writes, messages and answers.
///
/// # Errors
/// `Device`, where a write couldn't be made: the node is down, and has to be opened again. `OutOfMemory`, `TooLarge`.
pub fn serve(node: &mut Node, host: &mut impl Host) -> Result<(), Refusal> {
    loop {
        while let Some(due) = node.due()? {
            let is_done = host.write(due.area, due.at, due.bytes);
            node.done(is_done)?;
        }
        if !node.is_up() {
            return Err(Refusal::Down);
        }
        while let Some(message) = node.next_message()? {
            host.send(message.to, message.bytes);
        }
        while let Some(ack) = node.next_ack()? {
            host.answer(ack);
        }
        if node.due()?.is_none() {
            return Ok(());
        }
    }
}
