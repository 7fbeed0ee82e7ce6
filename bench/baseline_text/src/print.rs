//! Printing schedules and reports with the standard library alone.

use crate::types::*;
use std::fmt::{self, Display, Formatter};
use std::io::{self, Write};

impl Display for Short {
    fn fmt(&self, f: &mut Formatter) -> fmt::Result {
        f.write_str(std::str::from_utf8(self.as_bytes()).map_err(|_| fmt::Error)?)
    }
}

impl Display for Value {
    fn fmt(&self, f: &mut Formatter) -> fmt::Result {
        if self.0.as_bytes().is_empty() { Ok(()) } else { write!(f, " {}", self.0) }
    }
}

impl Display for NodeId {
    fn fmt(&self, f: &mut Formatter) -> fmt::Result {
        self.0.fmt(f)
    }
}

impl Display for Op {
    fn fmt(&self, f: &mut Formatter) -> fmt::Result {
        match self {
            Op::Claim(name, value) => write!(f, "claim {}{value}", name.0),
            Op::Update(name, value) => write!(f, "update {}{value}", name.0),
            Op::Release(name) => write!(f, "release {}", name.0),
            Op::Transfer(name, owner) => write!(f, "transfer {} {owner}", name.0),
        }
    }
}

impl Display for RequestNo {
    fn fmt(&self, f: &mut Formatter) -> fmt::Result {
        write!(f, "{}.{}", self.client, self.seq)
    }
}

impl Display for Command {
    fn fmt(&self, f: &mut Formatter) -> fmt::Result {
        write!(f, "{} {}", self.request, self.op)
    }
}

impl Display for NodeSet {
    fn fmt(&self, f: &mut Formatter) -> fmt::Result {
        if self.0 == 0 {
            return f.write_str("-");
        }
        (0..7).filter(|p| self.0 >> p & 1 == 1).try_for_each(|p| write!(f, "{p}"))
    }
}

/// The bytes of a fill, in hex.
struct Hex<'a>(&'a [u8]);

impl Display for Hex<'_> {
    fn fmt(&self, f: &mut Formatter) -> fmt::Result {
        if self.0.is_empty() {
            return f.write_str("-");
        }
        self.0.iter().try_for_each(|byte| write!(f, "{byte:02X}"))
    }
}

impl Display for Event {
    fn fmt(&self, f: &mut Formatter) -> fmt::Result {
        match self {
            Event::Submit { node, command } => {
                let RequestNo { client, seq } = command.request;
                write!(f, "submit {node} {client} {seq} {}", command.op)
            }
            Event::Hear { node, message } => write!(f, "hear {node} {message}"),
            Event::Suspect { node, set } => write!(f, "suspect {node} {set}"),
            Event::Tick { node } => write!(f, "tick {node}"),
            Event::Advance { node } => write!(f, "advance {node}"),
            Event::Take { node } => write!(f, "take {node}"),
            Event::Device { node } => write!(f, "dev {node}"),
            Event::Fail { node, fill } => write!(f, "fail {node} {}", Hex(fill)),
            Event::Mark { node } => write!(f, "mark {node}"),
            Event::Send { node } => write!(f, "send {node}"),
            Event::Ack { node } => write!(f, "ack {node}"),
            Event::Snap { node } => write!(f, "snap {node}"),
            Event::Crash { node, cut_0, cut_1, fill } => {
                write!(f, "crash {node} {cut_0} {cut_1} {}", Hex(fill))
            }
            Event::Restart { node } => write!(f, "restart {node}"),
        }
    }
}

impl Display for Body {
    fn fmt(&self, f: &mut Formatter) -> fmt::Result {
        match self {
            Body::Estimate(i, e) => {
                write!(f, "estimate {} {} {} {}", i.0, e.round, e.stamp, e.command)
            }
            Body::Proposal(i, r, command) => write!(f, "proposal {} {} {command}", i.0, r.0),
            Body::Ack(i, r) => write!(f, "ack {} {}", i.0, r.0),
            Body::Decision(i, command) => write!(f, "decision {} {command}", i.0),
            Body::Request(command) => write!(f, "request {command}"),
            Body::Nack(i, r) => write!(f, "nack {} {}", i.0, r.0),
            Body::Beat => f.write_str("beat"),
            Body::Suspects(set) => write!(f, "suspects {set}"),
            Body::Ask(i) => write!(f, "ask {}", i.0),
        }
    }
}

impl Display for Reply {
    fn fmt(&self, f: &mut Formatter) -> fmt::Result {
        match self {
            Reply::Claimed => f.write_str("claimed"),
            Reply::Taken(owner) => write!(f, "taken {owner}"),
        }
    }
}

impl Display for ReportLine {
    fn fmt(&self, f: &mut Formatter) -> fmt::Result {
        match self {
            ReportLine::Send { number, message } => {
                write!(f, "send {number} {} {} {}", message.from, message.to, message.body)
            }
            ReportLine::Ack { node, request, reply } => write!(f, "ack {node} {request} {reply}"),
        }
    }
}

pub fn schedule(schedule: &Schedule) -> io::Result<Vec<u8>> {
    let mut out = Vec::new();
    writeln!(out, "nodes {}", schedule.nodes)?;
    for event in &schedule.events {
        writeln!(out, "{event}")?;
    }
    Ok(out)
}

pub fn report(report: &Report) -> io::Result<Vec<u8>> {
    let mut out = Vec::new();
    for line in &report.lines {
        writeln!(out, "{line}")?;
    }
    writeln!(out, "decided {}", report.decided.len())?;
    for (i, command) in report.decided.iter().enumerate() {
        writeln!(out, "{i} {command}")?;
    }
    Ok(out)
}
