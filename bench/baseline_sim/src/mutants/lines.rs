//! Texts of lines, altered in a few places.

use super::{bytes, Draw};

const MOST_EDITS: usize = 6;
const NUMBERS: [&str; 17] = [
    "0",
    "1",
    "2",
    "3",
    "6",
    "7",
    "8",
    "00",
    "01",
    "64",
    "9999",
    "4294967295",
    "4294967296",
    "18446744073709551615",
    "18446744073709551616",
    "-1",
    "+1",
];
const WORDS: [&str; 20] = [
    "-", "A5", "a5", "A", "00FF", "012", "claim", "update", "release", "transfer", "a", "b", "x",
    "a-0", "hear", "dev", "look", "nodes", "~", "",
];
const FILLS: [&str; 5] = ["-", "A5", "00", "FF", "A500"];
const CUTS: [&str; 4] = ["0", "17", "9999", "4294967295"];

/// One of the texts behind some edits. Half of them keep lines whole.
pub fn altered_lines(draw: &mut Draw, texts: &[Vec<u8>]) -> Vec<u8> {
    let text = draw.of(texts);
    let mut lines: Vec<Vec<u8>> = text
        .split_inclusive(|&byte| byte == b'\n')
        .map(<[u8]>::to_vec)
        .collect();
    let keeps_lines = draw.happens(50);
    for _ in 0..1 + draw.below(MOST_EDITS) {
        if keeps_lines || draw.happens(50) {
            alter_lines(draw, &mut lines);
        } else {
            alter_line(draw, &mut lines);
        }
    }
    lines.concat()
}

/// Drops, repeats, exchanges and adds lines behind the first.
fn alter_lines(draw: &mut Draw, lines: &mut Vec<Vec<u8>>) {
    if lines.len() < 2 {
        return;
    }
    let nodes = nodes_of(&lines[0]);
    let at = 1 + draw.below(lines.len() - 1);
    let other = 1 + draw.below(lines.len() - 1);
    match draw.below(8) {
        0 => drop(lines.remove(at)),
        1 => lines.insert(at, lines[other].clone()),
        2 => lines.swap(at, other),
        3 => {
            let end = lines.len().min(at + 1 + draw.below(20));
            let stretch = lines[at..end].to_vec();
            lines.splice(at..at, stretch);
        }
        4 => drop(lines.drain(at..lines.len().min(at + 1 + draw.below(10)))),
        5 => fail_call(draw, &mut lines[at..]),
        6 => drop(lines.splice(at..at, job(draw, nodes))),
        _ => lines.insert(at, event(draw, nodes)),
    }
}

fn nodes_of(head: &[u8]) -> usize {
    match head.strip_suffix(b"\n").and_then(<[u8]>::last) {
        Some(digit @ b'1'..=b'7') => usize::from(digit - b'0'),
        _ => 7,
    }
}

/// The next device call fails.
fn fail_call(draw: &mut Draw, lines: &mut [Vec<u8>]) {
    let calls = lines.iter_mut().find(|line| line.starts_with(b"dev "));
    if let Some(line) = calls {
        let node = String::from_utf8_lossy(&line[4..]).trim_end().to_owned();
        *line = format!("fail {node} {}\n", draw.of(&FILLS)).into_bytes();
    }
}

/// A flush, or a crash and an opening.
fn job(draw: &mut Draw, nodes: usize) -> Vec<Vec<u8>> {
    let node = draw.below(nodes);
    let mut lines = Vec::new();
    if draw.happens(50) {
        let (first, second, fill) = (draw.of(&CUTS), draw.of(&CUTS), draw.of(&FILLS));
        lines.push(format!("crash {node} {first} {second} {fill}\n"));
        lines.push(format!("restart {node}\n"));
        lines.extend(vec![format!("dev {node}\n"); 2 + draw.below(8)]);
    } else {
        lines.push(format!("{} {node}\n", draw.of(&["take", "snap"])));
        lines.extend(vec![format!("dev {node}\n"); 1 + draw.below(6)]);
        lines.extend([
            format!("mark {node}\n"),
            format!("send {node}\n"),
            format!("ack {node}\n"),
        ]);
    }
    lines.into_iter().map(String::into_bytes).collect()
}

/// A lawful event of any kind.
fn event(draw: &mut Draw, nodes: usize) -> Vec<u8> {
    let node = draw.below(nodes);
    let line = match draw.below(8) {
        0 | 1 => {
            let (client, seq) = (7 + draw.below(3), 1 + draw.below(9));
            let rest = draw.of(&[
                "claim a",
                "claim a x",
                "claim b y",
                "update a z",
                "update b",
                "release a",
                "transfer a 8",
            ]);
            format!("submit {node} {client} {seq} {rest}\n")
        }
        2 | 3 => format!("hear {node} {}\n", draw.below(30)),
        4 => format!("suspect {node} {}\n", draw.of(&["-", "0", "01", "12", "2"])),
        _ => format!(
            "{} {node}\n",
            draw.of(&["tick", "advance", "take", "dev", "mark", "send", "ack", "snap", "restart"])
        ),
    };
    line.into_bytes()
}

/// Alters a word or a byte of a line.
fn alter_line(draw: &mut Draw, lines: &mut [Vec<u8>]) {
    if lines.is_empty() {
        return;
    }
    let at = draw.below(lines.len());
    let line = &mut lines[at];
    if draw.happens(50) {
        bytes::alter(draw, line);
        return;
    }
    let end = line.ends_with(b"\n");
    let text = line.strip_suffix(b"\n").unwrap_or(line);
    let mut words: Vec<&[u8]> = text.split(|&byte| byte == b' ').collect();
    let place = draw.below(words.len());
    let long = [b'a'; 65];
    words[place] = match draw.below(5) {
        0 => &long[..64 + draw.below(2)],
        1 | 2 => draw.of(&NUMBERS).as_bytes(),
        _ => draw.of(&WORDS).as_bytes(),
    };
    let mut altered = words.join(&b' ');
    if end {
        altered.push(b'\n');
    }
    *line = altered;
}
