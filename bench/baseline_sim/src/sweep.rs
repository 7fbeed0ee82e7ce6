//! A sweep of a schedule: a crash after each of its device calls, in five
//! ways, and the opening behind it.

use std::io::{self, Write};

use crate::cluster::Cluster;
use crate::draw::Pcg32;
use crate::node::{Node, Outcome};
use crate::report::Report;
use crate::schedule::{Action, Event, Fault, Schedule};

const MAX_EVENTS: usize = 999_989;
const KEEP_ALL: usize = u32::MAX as usize;

/// Prints the lines of a sweep as they come. The schedule is run once.
pub fn sweep(text: &[u8], seed: u64, out: &mut impl Write) -> io::Result<Result<(), Fault>> {
    let (nodes, events) = match read(text) {
        Ok(read) => read,
        Err(fault) => return Ok(Err(fault)),
    };
    let mut cluster = Cluster::new(nodes);
    let mut words = Pcg32::of_seed(seed);
    for (line, event) in events {
        let node = event.node;
        let is_call = matches!(event.action, Action::Device);
        cluster.step(line, event, false);
        if is_call {
            let word = words.word() as usize;
            let mut lines = Vec::new();
            for (number, (cut, fill)) in (1..).zip(endings(word)) {
                write!(lines, "{line} {number} ")?;
                let crashed = cluster.node(node).after_crash([cut, cut], fill.as_slice());
                lines.extend_from_slice(&restart(node, crashed));
            }
            out.write_all(&lines)?;
            out.flush()?;
        }
    }
    Ok(Ok(()))
}

/// All events of a schedule with their lines.
fn read(text: &[u8]) -> Result<(u8, Vec<(u32, Event)>), Fault> {
    let mut schedule = Schedule::begin(text)?;
    let mut events = Vec::new();
    while let Some(event) = schedule.next()? {
        events.push(event);
    }
    if events.len() > MAX_EVENTS {
        let line = MAX_EVENTS + 2;
        return Err(Fault::BadEvent { line });
    }
    Ok((schedule.nodes, events))
}

/// Where the crashes cut both areas, and what they fill loose bytes with.
fn endings(word: usize) -> [(usize, Option<u8>); 5] {
    [
        (KEEP_ALL, Some(0xA5)),
        (KEEP_ALL, Some(0)),
        (0, None),
        (KEEP_ALL, None),
        (word / 256 % 1024, Some((word % 256) as u8)),
    ]
}

/// The line of a node that opens its disk.
fn restart(number: u8, mut node: Node) -> Vec<u8> {
    let mut report = Report::default();
    let mut answer = node.restart();
    while let Ok(Outcome::Quiet) = answer {
        answer = node.device();
    }
    if let Ok(Outcome::Opened { facts, decided }) = answer {
        report.restart(number, facts, decided, node.registry());
    }
    report.into_text()
}
