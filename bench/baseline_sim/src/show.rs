//! What the areas of a node's disk hold, told as text.

use std::fmt::Write;

use crate::codec::Version;
use crate::journal::{read_areas, Content, Damage};

/// A line for each area: whether it is formatted, and what it holds.
pub fn show(areas: [&[u8]; 2]) -> Result<String, Damage> {
    let mut text = String::new();
    for (area, content) in read_areas(None, areas)?.iter().enumerate() {
        put_line(&mut text, area, content.as_ref());
    }
    Ok(text)
}

fn put_line(text: &mut String, area: usize, content: Option<&Content>) {
    let written = match content {
        None => writeln!(text, "area {area} unformatted"),
        Some(content) => writeln!(
            text,
            "area {area} epoch {} node {} of {} facts {} decided {}{}",
            content.journal.epoch,
            content.place.node,
            content.place.nodes,
            content.next,
            content.promise.decided_prefix(),
            match content.version {
                Version::One => " version 1",
                Version::Two => "",
            }
        ),
    };
    written.expect("a text takes what is written");
}
