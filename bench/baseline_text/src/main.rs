//! What `bench_text` does, in plain Rust over the same types, for comparison.
#![forbid(unsafe_code)]

mod parse;
mod print;
mod types;

use std::time::Instant;
use types::*;

const EVENTS: [&str; 16] = [
    "submit 0 7 1 claim name-09 value\n",
    "dev 0\n",
    "take 1\n",
    "dev 1\n",
    "hear 2 123456\n",
    "hear 1 4294967295\n",
    "mark 2\n",
    "send 0\n",
    "suspect 1 12\n",
    "tick 0\n",
    "submit 2 4294967295 18446744073709551615 release a\n",
    "ack 1\n",
    "fail 2 A50F\n",
    "crash 0 1 93 00FF\n",
    "restart 0\n",
    "advance 2\n",
];

fn command(client: u32, seq: u64, op: Op) -> Command {
    Command { request: RequestNo { client, seq }, op }
}

fn outputs() -> Option<[ReportLine; 11]> {
    let (name, a) = (Name(Short::new(b"name-09")?), Name(Short::new(b"a")?));
    let (value, none) = (Value(Short::new(b"value")?), Value(Short::new(b"")?));
    let claim = command(7, 1, Op::Claim(name, value));
    let (five, three) = (Instance(5), Round(3));
    let sent = |number, from, to, body| {
        let message = Message { from: NodeId(from), to: NodeId(to), body };
        ReportLine::Send { number, message }
    };
    let acked = |node, reply| {
        let request = RequestNo { client: 7, seq: 1 };
        ReportLine::Ack { node: NodeId(node), request, reply }
    };
    let estimate = Estimate { round: 3, stamp: 2, command: claim };
    let transfer = command(4294967295, 18446744073709551615, Op::Transfer(a, 9));
    Some([
        sent(0, 0, 2, Body::Estimate(five, estimate)),
        sent(1, 0, 2, Body::Proposal(five, three, claim)),
        sent(2, 1, 0, Body::Ack(five, three)),
        acked(1, Reply::Claimed),
        sent(3, 0, 2, Body::Decision(five, transfer)),
        sent(4, 2, 1, Body::Request(command(7, 1, Op::Update(a, none)))),
        sent(5, 0, 2, Body::Nack(Instance(1048575), Round(2147483647))),
        acked(2, Reply::Taken(9)),
        sent(6, 1, 0, Body::Beat),
        sent(7, 0, 2, Body::Suspects(NodeSet(6))),
        sent(8, 0, 2, Body::Ask(five)),
    ])
}

fn report(count: usize) -> Option<Report> {
    let outputs = outputs()?;
    let lines = (0..count).map(|i| match &outputs[i % outputs.len()] {
        ReportLine::Send { message, .. } => ReportLine::Send { number: i as u64, message: *message },
        ReportLine::Ack { node, request, reply } => {
            ReportLine::Ack { node: *node, request: *request, reply: *reply }
        }
    });
    Some(Report { lines: lines.collect(), decided: Vec::new() })
}

fn number(word: Option<String>) -> Option<usize> {
    word?.parse().ok()
}

fn main() -> std::io::Result<()> {
    let mut words = std::env::args().skip(1);
    let (Some(count), Some(lines)) = (number(words.next()), number(words.next())) else {
        eprintln!("wanted: baseline_text EVENTS LINES");
        return Ok(());
    };
    let mut bytes = b"nodes 3\n".to_vec();
    for i in 0..count {
        bytes.extend_from_slice(EVENTS[i % EVENTS.len()].as_bytes());
    }
    let start = Instant::now();
    let schedule = match parse::schedule(&bytes) {
        Ok(schedule) => schedule,
        Err(Refusal::BadNodes) => return Err(std::io::Error::other("BadNodes")),
        Err(Refusal::BadEvent(line)) => return Err(std::io::Error::other(format!("BadEvent {line}"))),
    };
    eprintln!("parse {}", start.elapsed().as_micros());
    let start = Instant::now();
    let text = print::schedule(&schedule)?;
    eprintln!("print {}", start.elapsed().as_micros());
    assert!(text == bytes);
    let (events, read, printed) = (schedule.events.len(), bytes.len(), text.len());
    println!("parsed {events} events of {read} bytes, printed {printed} bytes");
    let Some(report) = report(lines) else {
        return Ok(());
    };
    let start = Instant::now();
    let text = print::report(&report)?;
    eprintln!("report {}", start.elapsed().as_micros());
    println!("printed {} lines of {} bytes", report.lines.len(), text.len());
    Ok(())
}
