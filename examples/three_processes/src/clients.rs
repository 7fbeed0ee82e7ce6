//! Clients by lines: a line asks, and a line answers.

use crate::wires::Wire;

/// More than the longest line has.
const LONGEST: usize = 1024;

/// A line of a client.
pub enum Line {
    /// A command under a number of the client's own: its kind, the name, and a value or another client.
    Command { client: u32, seq: u64, kind: String, name: String, with: String },
    /// Who has a name.
    Look(String),
    /// The bound names.
    List,
    /// How many commands are decided here.
    Count,
}

/// `claim CLIENT SEQ NAME VALUE`, `update` the same, `release CLIENT SEQ NAME`, `transfer CLIENT SEQ NAME CLIENT`, `look NAME`, `list`, `count`.
fn read(line: &str) -> Option<Line> {
    let words: Vec<&str> = line.split_ascii_whitespace().collect();
    let command = |client: &str, seq: &str, kind: &str, name: &str, with: &str| {
        Some(Line::Command {
            client: client.parse().ok()?,
            seq: seq.parse().ok()?,
            kind: kind.into(),
            name: name.into(),
            with: with.into(),
        })
    };
    match words[..] {
        [kind @ ("claim" | "update" | "transfer"), client, seq, name, with] => command(client, seq, kind, name, with),
        [kind @ "release", client, seq, name] => command(client, seq, kind, name, ""),
        ["look", name] => Some(Line::Look(name.into())),
        ["list"] => Some(Line::List),
        ["count"] => Some(Line::Count),
        _ => None,
    }
}

/// The lines that have come whole; none for one that asks nothing. Who says more than a line can have is broken off.
pub fn lines(wire: &mut Wire) -> Vec<Option<Line>> {
    let mut lines = Vec::new();
    let mut at = 0;
    while let Some(len) = wire.came[at..].iter().position(|&byte| byte == b'\n') {
        lines.push(str::from_utf8(&wire.came[at..at + len]).ok().and_then(read));
        at += len + 1;
    }
    wire.came.drain(..at);
    wire.is_broken |= wire.came.len() > LONGEST;
    lines
}
