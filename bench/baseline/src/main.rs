//! What `bench/programs/bench_wire` does, in plain Rust: `baseline COUNT`.

mod types;
mod wire;

use std::time::Instant;
use types::*;

struct Texts {
    name: Name,
    value: Value,
}

fn command(texts: &Texts, number: u64) -> Command {
    let op = match number / 9 % 4 {
        0 => Op::Claim(texts.name, texts.value),
        1 => Op::Update(texts.name, texts.value),
        2 => Op::Release(texts.name),
        _ => Op::Transfer(texts.name, 9),
    };
    let client = (number % 1000) as u32;
    Command { request: RequestNo { client, seq: number }, op }
}

fn body(texts: &Texts, number: u64) -> Result<Body, Refusal> {
    let instance = Instance::new((number % 1_048_576) as u32).ok_or(Refusal::ListFull)?;
    let round = Round::new((number % 1000) as u32 + 1).ok_or(Refusal::RoundsOut)?;
    let command = command(texts, number);
    Ok(match number % 9 {
        0 => {
            let estimate = Estimate::new(round, 0, command).ok_or(Refusal::RoundsOut)?;
            Body::Estimate(instance, estimate)
        }
        1 => Body::Proposal(instance, round, command),
        2 => Body::Ack(instance, round),
        3 => Body::Decision(instance, command),
        4 => Body::Request(command),
        5 => Body::Nack(instance, round),
        6 => Body::Beat,
        7 => Body::Suspects(NodeSet::from_bits(7, 0).ok_or(Refusal::BadNodes)?),
        _ => Body::Ask(instance),
    })
}

fn message(texts: &Texts, number: u64) -> Result<Message, Refusal> {
    let from = NodeId::new(7, (number % 7) as u8).ok_or(Refusal::BadNodes)?;
    let to = NodeId::new(7, (number / 7 % 7) as u8).ok_or(Refusal::BadNodes)?;
    let body = body(texts, number)?;
    Ok(Message { from, to, body })
}

fn command_weight(command: &Command) -> u64 {
    let text = match &command.op {
        Op::Claim(name, value) | Op::Update(name, value) => {
            name.as_bytes().len() + value.as_bytes().len()
        }
        Op::Release(name) | Op::Transfer(name, _) => name.as_bytes().len(),
    };
    command.request.seq.wrapping_add(text as u64)
}

fn weight(message: &Message) -> u64 {
    let body = match &message.body {
        Body::Estimate(instance, estimate) => command_weight(&estimate.command)
            .wrapping_add(instance.number() as u64 ^ estimate.round.number() as u64),
        Body::Proposal(instance, round, command) => {
            command_weight(command).wrapping_add(instance.number() as u64 ^ round.number() as u64)
        }
        Body::Ack(instance, round) | Body::Nack(instance, round) => {
            instance.number() as u64 ^ round.number() as u64
        }
        Body::Decision(instance, command) => {
            command_weight(command).wrapping_add(instance.number() as u64)
        }
        Body::Request(command) => command_weight(command),
        Body::Beat => 1,
        Body::Suspects(set) => set.bits() as u64,
        Body::Ask(instance) => instance.number() as u64,
    };
    body.wrapping_add(message.from.index() as u64 ^ message.to.index() as u64)
}

fn go_through(texts: &Texts, count: u64) -> Result<(u64, u64), Refusal> {
    let (mut size, mut sum) = (0u64, 0u64);
    for number in 0..count {
        let bytes = wire::encode(&message(texts, number)?);
        let read = wire::decode(7, &bytes)?;
        size = size.wrapping_add(bytes.len() as u64);
        sum = sum.wrapping_add(weight(&read));
    }
    Ok((size, sum))
}

fn main() {
    let word = std::env::args().nth(1).expect("give a number of messages");
    let count: u64 = word.parse().expect("a number of messages");
    let texts = Texts {
        name: Name::new(b"lighthouse-7").expect("a name"),
        value: Value::new(b"203.0.113.7:8443").expect("a value"),
    };
    let start = Instant::now();
    let (size, sum) = go_through(&texts, count).expect("messages");
    let taken = start.elapsed().as_micros();
    println!("{count} messages, {size} bytes, weight {sum}");
    eprintln!("{taken}");
}
