//! Tells whether a tape is a run: the nodes are replayed, and each event has to
//! be the one that its node gives next.

use crate::consensus::Core;
use crate::journal::Content;
use crate::schedule::{Action, Event, Fault, Schedule};
use crate::tape::{read_tape_event, Recorded, TapeEvent};
use crate::types::{Message, NodeId, Place, Reply, RequestNo, Shared};

/// What an audit finds.
pub enum Verdict {
    /// So many events are a run.
    Yes(u32),
    /// The event of this number, from 1, isn't what its node gives next.
    No(u32),
}

/// Audits the text of a tape. A line without a place in it is a fault, also
/// behind an event that stops the run.
pub fn audit(text: &[u8]) -> Result<Verdict, Fault> {
    let mut tape = Schedule::begin(text)?;
    let mut replay = Replay::new(tape.nodes);
    let mut count = 0;
    let mut stop = None;
    while let Some((_, event)) = tape.next_by(read_tape_event)? {
        count += 1;
        if stop.is_none() && !replay.takes(event) {
            stop = Some(count);
        }
    }
    Ok(stop.map_or(Verdict::Yes(count), Verdict::No))
}

/// The nodes, which keep what they write and are never down, and all messages
/// ever sent.
struct Replay {
    nodes: Vec<Core>,
    wire: Vec<Message>,
}

impl Replay {
    /// So many nodes, all up and without facts.
    fn new(nodes: u8) -> Self {
        let start = |node| {
            let place = Place { node, nodes };
            Core::start(place, Content::formatted(place, 0))
        };
        Replay {
            nodes: (0..nodes).map(start).collect(),
            wire: Vec::new(),
        }
    }

    /// The event happens, if its node gives it next; answers whether it does.
    fn takes(&mut self, event: TapeEvent) -> bool {
        match event {
            TapeEvent::Did(event) => self.does(event),
            TapeEvent::Sent(number, recorded) => self.sends(number, &recorded),
            TapeEvent::Replied(node, request, reply) => self.replies(node, request, reply),
        }
    }

    fn does(&mut self, event: Event) -> bool {
        let core = &mut self.nodes[usize::from(event.node)];
        match event.action {
            Action::Submit(command) => core.submit(Shared::new(command)).is_ok(),
            Action::Hear(number) => match self.wire.get(number as usize) {
                Some(message) if message.to == event.node => {
                    core.hear(message);
                    true
                }
                _ => false,
            },
            Action::Suspect(set) => {
                core.suspect(set);
                true
            }
            Action::Tick => {
                core.tick();
                true
            }
            Action::Advance => core.advance().is_ok(),
            Action::Take => takes_group(core),
            Action::Mark => marks_group(core),
            _ => false,
        }
    }

    /// The node's next message has to be this one, with the next number.
    fn sends(&mut self, number: u32, recorded: &Recorded) -> bool {
        if number as usize != self.wire.len() {
            return false;
        }
        match self.nodes[usize::from(recorded.from)].next_message() {
            Some(message) if recorded.is(&message) => {
                self.wire.push(message);
                true
            }
            _ => false,
        }
    }

    fn replies(&mut self, node: NodeId, request: RequestNo, reply: Reply) -> bool {
        self.nodes[usize::from(node)].next_ack() == Some((request, reply))
    }
}

/// The oldest staged facts are taken, where there are any and none are taken.
fn takes_group(core: &mut Core) -> bool {
    let may_take = !core.has_running() && core.next_group().is_some();
    if may_take {
        core.take_group();
    }
    may_take
}

/// The group that was taken is marked, where there is one.
fn marks_group(core: &mut Core) -> bool {
    let may_mark = core.has_running();
    if may_mark {
        core.mark();
    }
    may_mark
}
