//! The text of a script, which clients ask of nodes in threads.

use crate::schedule::{read_event, read_node, Action, Fault, Schedule};
use crate::types::is_name;

/// How many lines a script among so many nodes has.
pub fn count_lines(nodes: u8, text: &[u8]) -> Result<usize, Fault> {
    let mut lines = Schedule::without_head(nodes, text);
    let mut count = 0;
    while lines.next_by(read_line)?.is_some() {
        count += 1;
    }
    Ok(count)
}

/// A submit as in a schedule, or a look at a name.
fn read_line(line: &[u8], nodes: u8) -> Option<()> {
    if let Some(rest) = line.strip_prefix(b"look ") {
        let mut words = rest.split(|&byte| byte == b' ');
        read_node(words.next()?, nodes)?;
        let is_named = is_name(words.next()?);
        return (is_named && words.next().is_none()).then_some(());
    }
    let event = read_event(line, nodes)?;
    matches!(event.action, Action::Submit(_)).then_some(())
}
