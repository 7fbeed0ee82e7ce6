//! Runs of nodes in threads, with a client of each.

use std::sync::mpsc::{channel, sync_channel, Receiver, SyncSender};
use std::sync::RwLock;
use std::{io, thread};

use crate::consensus::Core;
use crate::files::{Failure, Store};
use crate::journal::Content;
use crate::node::{flush_all, Input, Node, Receipt};
use crate::registry::Registry;
use crate::script::{Answer, Line};
use crate::types::NodeId;

/// How many inputs an inbox holds.
const INBOX: usize = 256;

/// Answers a script.
pub fn run(stores: Vec<(Store, Content)>, lines: &[Line]) -> Result<Vec<Answer>, Failure> {
    let (senders, inboxes): (Vec<_>, Vec<_>) = stores.iter().map(|_| sync_channel(INBOX)).unzip();
    let registries: Vec<_> = stores
        .iter()
        .map(|_| RwLock::new(Registry::default()))
        .collect();
    let (told, ran) = thread::scope(|scope| {
        let mut nodes = Vec::new();
        let mut clients = Vec::new();
        for (index, ((store, content), inputs)) in stores.into_iter().zip(inboxes).enumerate() {
            let published = &registries[index];
            let (groups, flushes) = channel();
            let (receipts, told) = channel();
            let node = Node {
                core: Core::start(content.place, content),
                inputs,
                peers: senders.clone(),
                groups,
                receipts,
                published,
                shown: 0,
            };
            let own = senders[index].clone();
            scope.spawn(move || flush_all(store, flushes, own));
            nodes.push(scope.spawn(move || node.run()));
            let submits = senders[index].clone();
            clients.push(
                scope.spawn(move || serve(index as NodeId, lines, &submits, &told, published)),
            );
        }
        let told: Vec<_> = clients
            .into_iter()
            .map(|client| client.join().unwrap())
            .collect();
        for sender in &senders {
            let _ = sender.send(Input::Stop);
        }
        let ran: io::Result<()> = nodes.into_iter().try_for_each(|node| node.join().unwrap());
        (told, ran)
    });
    ran?;
    let mut answers: Vec<_> = told.into_iter().flatten().collect();
    answers.sort_by_key(|&(place, _)| place);
    Ok(answers.into_iter().map(|(_, answer)| answer).collect())
}

/// Asks what the lines of a script ask of a node, in their order.
fn serve(
    node: NodeId,
    lines: &[Line],
    submits: &SyncSender<Input>,
    receipts: &Receiver<Receipt>,
    published: &RwLock<Registry>,
) -> Vec<(usize, Answer)> {
    let own = lines
        .iter()
        .enumerate()
        .filter(|(_, line)| line.node() == node);
    own.map(|(place, line)| (place, ask(node, line, submits, receipts, published)))
        .collect()
}

fn ask(
    node: NodeId,
    line: &Line,
    submits: &SyncSender<Input>,
    receipts: &Receiver<Receipt>,
    published: &RwLock<Registry>,
) -> Answer {
    match line {
        Line::Submit(_, command) => {
            let request = command.request;
            let sent = submits.send(Input::Submit(command.clone())).ok();
            match sent.and_then(|()| receipts.recv().ok()) {
                Some((_, Some(reply))) => Answer::Acknowledged(node, request, reply),
                _ => Answer::Unacknowledged(node, request),
            }
        }
        Line::Look(_, name) => {
            let registry = published.read().unwrap();
            match registry.binding(name) {
                None => Answer::Free(node, name.clone()),
                Some(held) => Answer::Bound(node, name.clone(), held.owner, held.value.clone()),
            }
        }
    }
}
