//! Parsing schedules with the standard library alone.

use crate::types::*;

type Words<'a> = std::slice::Split<'a, u8, fn(&u8) -> bool>;

fn number<T: std::str::FromStr>(word: &[u8]) -> Option<T> {
    if word.len() > 1 && word[0] == b'0' || !word.iter().all(u8::is_ascii_digit) {
        return None;
    }
    std::str::from_utf8(word).ok()?.parse().ok()
}

fn name(word: &[u8]) -> Option<Name> {
    let fits = |b: &u8| b.is_ascii_lowercase() || b.is_ascii_digit() || *b == b'-';
    if word.is_empty() || !word.iter().all(fits) {
        return None;
    }
    Short::new(word).map(Name)
}

fn value(word: Option<&[u8]>) -> Option<Value> {
    match word {
        None => Short::new(b"").map(Value),
        Some(b"") => None,
        Some(word) if word.iter().all(u8::is_ascii_graphic) => Short::new(word).map(Value),
        Some(_) => None,
    }
}

fn node(nodes: u8, word: &[u8]) -> Option<NodeId> {
    match word {
        [digit @ b'0'..=b'6'] if digit - b'0' < nodes => Some(NodeId(digit - b'0')),
        _ => None,
    }
}

fn set(nodes: u8, word: &[u8]) -> Option<NodeSet> {
    if word == b"-" {
        return Some(NodeSet(0));
    }
    if word.is_empty() || !word.is_sorted_by(|a, b| a < b) {
        return None;
    }
    let mut bits = 0;
    for digit in word {
        bits |= 1 << node(nodes, std::slice::from_ref(digit))?.0;
    }
    Some(NodeSet(bits))
}

fn hex(digit: u8) -> Option<u8> {
    match digit {
        b'0'..=b'9' => Some(digit - b'0'),
        b'A'..=b'F' => Some(digit - b'A' + 10),
        _ => None,
    }
}

fn fill(word: &[u8]) -> Option<Vec<u8>> {
    if word == b"-" {
        return Some(Vec::new());
    }
    if word.is_empty() || word.len() % 2 == 1 {
        return None;
    }
    word.chunks_exact(2).map(|pair| Some(16 * hex(pair[0])? + hex(pair[1])?)).collect()
}

fn op(words: &mut Words) -> Option<Op> {
    match words.next()? {
        b"claim" => Some(Op::Claim(name(words.next()?)?, value(words.next())?)),
        b"update" => Some(Op::Update(name(words.next()?)?, value(words.next())?)),
        b"release" => Some(Op::Release(name(words.next()?)?)),
        b"transfer" => Some(Op::Transfer(name(words.next()?)?, number(words.next()?)?)),
        _ => None,
    }
}

fn event(nodes: u8, line: &[u8]) -> Option<Event> {
    let mut words: Words = line.split(|byte| *byte == b' ');
    let keyword = words.next()?;
    let node = node(nodes, words.next()?)?;
    let event = match keyword {
        b"submit" => {
            let request = RequestNo { client: number(words.next()?)?, seq: number(words.next()?)? };
            Event::Submit { node, command: Command { request, op: op(&mut words)? } }
        }
        b"hear" => Event::Hear { node, message: number(words.next()?)? },
        b"suspect" => Event::Suspect { node, set: set(nodes, words.next()?)? },
        b"tick" => Event::Tick { node },
        b"advance" => Event::Advance { node },
        b"take" => Event::Take { node },
        b"dev" => Event::Device { node },
        b"fail" => Event::Fail { node, fill: fill(words.next()?)? },
        b"mark" => Event::Mark { node },
        b"send" => Event::Send { node },
        b"ack" => Event::Ack { node },
        b"snap" => Event::Snap { node },
        b"crash" => Event::Crash {
            node,
            cut_0: number(words.next()?)?,
            cut_1: number(words.next()?)?,
            fill: fill(words.next()?)?,
        },
        b"restart" => Event::Restart { node },
        _ => return None,
    };
    if words.next().is_some() { None } else { Some(event) }
}

pub fn schedule(bytes: &[u8]) -> Result<Schedule, Refusal> {
    let mut lines = bytes.split_inclusive(|byte| *byte == b'\n');
    let word = lines.next().and_then(|line| line.strip_prefix(b"nodes ")?.strip_suffix(b"\n"));
    let nodes = match word.ok_or(Refusal::BadEvent(1))? {
        [digit @ b'1'..=b'7'] => digit - b'0',
        [b'0'] | [b'1'..=b'9', ..] => return Err(Refusal::BadNodes),
        _ => return Err(Refusal::BadEvent(1)),
    };
    let mut events = Vec::new();
    for (line, number) in lines.zip(2..) {
        let text = line.strip_suffix(b"\n").filter(|_| events.len() < 1_000_000);
        let event = text.and_then(|text| event(nodes, text));
        events.push(event.ok_or(Refusal::BadEvent(number))?);
    }
    Ok(Schedule { nodes, events })
}
