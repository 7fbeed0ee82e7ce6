//! A cluster of nodes, and what each event of a schedule does to it.

use std::collections::{BTreeMap, HashMap};

use crate::node::{Answer, Node, Outcome};
use crate::report::Report;
use crate::schedule::{Action, Event};
use crate::types::{Body, Message, NodeSet, Place, Shared, SharedCommand};

pub struct Cluster {
    nodes: Vec<Node>,
    /// All messages ever sent.
    wire: Vec<Message>,
    report: Report,
}

impl Cluster {
    /// So many nodes, all down, over empty disks.
    pub fn new(nodes: u8) -> Self {
        let seats = (0..nodes).map(|node| Node::new(Place { node, nodes }));
        Cluster {
            nodes: seats.collect(),
            wire: Vec::new(),
            report: Report::default(),
        }
    }

    /// All messages ever sent.
    pub fn wire(&self) -> &[Message] {
        &self.wire
    }

    /// A node.
    pub fn node(&self, node: u8) -> &Node {
        &self.nodes[usize::from(node)]
    }

    /// How many bytes the report has by now.
    pub fn told(&self) -> usize {
        self.report.len()
    }

    /// The areas of node 0.
    pub fn areas(&self) -> [Vec<u8>; 2] {
        self.nodes[0].areas()
    }

    /// Whether an event is idle whatever its node does: there is no such message for it.
    fn is_idle(&self, event: &Event) -> bool {
        match event.action {
            Action::Hear(number) => self
                .wire
                .get(number as usize)
                .is_none_or(|message| message.to != event.node),
            _ => false,
        }
    }

    /// The event of a line happens, or is starved: memory is wanting for it.
    /// Answers whether that made a difference.
    pub fn step(&mut self, line: u32, event: Event, starved: bool) -> bool {
        if starved && !self.is_idle(&event) {
            if let Some(answer) = self.nodes[usize::from(event.node)].starve(&event.action) {
                self.note(line, event.node, answer);
                return true;
            }
        }
        self.happen(line, event);
        false
    }

    fn happen(&mut self, line: u32, event: Event) {
        let node = &mut self.nodes[usize::from(event.node)];
        let answer = match event.action {
            Action::Submit(command) => node
                .core()
                .and_then(|core| core.submit(Shared::new(command)))
                .map(quiet),
            Action::Hear(number) => match self.wire.get(number as usize) {
                Some(message) if message.to == event.node => {
                    node.core().map(|core| core.hear(message)).map(quiet)
                }
                _ => return,
            },
            Action::Suspect(set) => node.core().map(|core| core.suspect(set)).map(quiet),
            Action::Tick => node.core().map(|core| core.tick()).map(quiet),
            Action::Advance => node.core().and_then(|core| core.advance()).map(quiet),
            Action::Take => node.take(),
            Action::Device => node.device(),
            Action::Fail(fill) => node.fail(&fill),
            Action::Mark => node.mark(),
            Action::Send => node.send(),
            Action::Ack => node.acknowledge(),
            Action::Snap => node.snap(),
            Action::Crash(cuts, fill) => {
                node.crash(cuts.map(|cut| cut as usize), &fill);
                return;
            }
            Action::Restart => node.restart(),
        };
        self.note(line, event.node, answer);
    }

    /// Reports what a node answered.
    fn note(&mut self, line: u32, node: u8, answer: Answer) {
        match answer {
            Ok(Outcome::Quiet) => {}
            Ok(Outcome::Left(message)) => {
                self.report.send(self.wire.len(), &message);
                self.wire.push(message);
            }
            Ok(Outcome::Replied(request, reply)) => self.report.ack(node, request, reply),
            Ok(Outcome::Opened { facts, decided }) => {
                let registry = self.nodes[usize::from(node)].registry();
                self.report.restart(node, facts, decided, registry);
            }
            Err(refusal) => self.report.refuse(line, refusal),
        }
    }

    /// The report, which ends with the decided list.
    pub fn finish(mut self) -> Vec<u8> {
        let list = decided_list(self.nodes.len() as u8, &self.wire);
        self.report.decided(&list);
        self.report.into_text()
    }
}

fn quiet(_: ()) -> Outcome {
    Outcome::Quiet
}

/// The longest list whose place i holds a command that is chosen on the wire:
/// proposed in a round of instance i that a majority has acknowledged.
fn decided_list(nodes: u8, wire: &[Message]) -> Vec<SharedCommand> {
    let mut acks: HashMap<(u32, u32), NodeSet> = HashMap::new();
    for message in wire {
        if let Body::Ack { instance, round } = message.body {
            *acks.entry((instance, round)).or_default() |= 1 << message.from;
        }
    }
    let place = Place { node: 0, nodes };
    acks.retain(|_, senders| place.is_majority(senders.count_ones()));
    let mut chosen = BTreeMap::new();
    for message in wire {
        if let Body::Proposal {
            instance,
            round,
            command,
        } = &message.body
        {
            if acks.contains_key(&(*instance, *round)) {
                chosen.entry(*instance).or_insert(command);
            }
        }
    }
    let contiguous = (0..)
        .zip(chosen)
        .take_while(|(place, (instance, _))| place == instance);
    contiguous
        .map(|(_, (_, command))| command.clone())
        .collect()
}
