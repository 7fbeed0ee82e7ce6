//! A host of the library, as a program of your own might be one: one node in each process, over TCP on this machine and two files.
//!
//!     three_processes NODES NODE FOLDER PORT [new]
//!
//! Nodes hear one another on PORT + their number, and clients on PORT + 100 + their number. `new` is for the first start alone: a node whose files
//! vanished isn't started. It authenticates nobody. It is an example, and tested; what is proved is the library's.

mod areas;
mod clients;
mod links;
mod wires;

use areas::Areas;
use clients::Line;
use links::Link;
use rr::{Ack, Node, Op, Refusal};
use std::collections::{BTreeMap, HashMap};
use std::error::Error;
use std::io;
use std::net::TcpListener;
use std::path::Path;
use std::time::{Duration, Instant, SystemTime, UNIX_EPOCH};
use wires::{Wire, Wish};

/// How long it is from one tick to the next.
const TICK: Duration = Duration::from_millis(50);

/// At this tick all processes that are there have connected, so that no request of a process that comes back is lost.
const CONNECTED: u32 = 4;

/// The clients' numbers from here on are the processes' own.
const OWN: u32 = u32::MAX - 6;

/// Where something can come from.
#[derive(Clone, Copy)]
enum Source {
    Disk,
    Listener(usize),
    Link(u8),
    Caller(u64),
}

/// Who has connected: a node or a client, which waits for so many requests.
struct Caller {
    wire: Wire,
    is_node: bool,
    waits: usize,
}

/// What a node has in this process.
struct Process {
    areas: Areas,
    /// For nodes, and for clients.
    listeners: [TcpListener; 2],
    links: BTreeMap<u8, Link>,
    callers: BTreeMap<u64, Caller>,
    /// Who waits for a request.
    waiting: HashMap<(u32, u64), u64>,
    count: u64,
}

impl Process {
    /// Waits until something comes, or the time is over. From where it comes.
    fn wait(&self, most: Duration) -> io::Result<Vec<Source>> {
        let mut wishes = vec![(Source::Disk, Wish::to_read(&self.areas.ends))];
        wishes.extend((0..2).map(|which| (Source::Listener(which), Wish::to_read(&self.listeners[which]))));
        wishes.extend(self.links.iter().filter_map(|(&to, link)| Some((Source::Link(to), link.wish()?))));
        wishes.extend(self.callers.iter().map(|(&number, caller)| (Source::Caller(number), caller.wire.wish())));
        let (sources, mut wishes): (Vec<_>, Vec<_>) = wishes.into_iter().unzip();
        wires::wait(&mut wishes, most)?;
        Ok(sources.into_iter().zip(&wishes).filter(|(_, wish)| wish.is_met()).map(|(source, _)| source).collect())
    }

    /// Somebody connects.
    fn accept(&mut self, which: usize) {
        if let Ok(wire) = self.listeners[which].accept().and_then(|(stream, _)| Wire::new(stream)) {
            self.callers.insert(self.count, Caller { wire, is_node: which == 0, waits: 0 });
            self.count += 1;
        }
    }

    /// Takes what has come from somewhere.
    fn take(&mut self, node: &mut Node, source: Source, room: &mut [u8]) -> Result<(), Box<dyn Error>> {
        match source {
            Source::Disk => node.done(self.areas.end()?)?,
            Source::Listener(which) => self.accept(which),
            Source::Link(to) => self.links.get_mut(&to).into_iter().for_each(|link| link.look(room)),
            Source::Caller(number) => {
                let Some(caller) = self.callers.get_mut(&number) else { return Ok(()) };
                caller.wire.read(room);
                if caller.is_node {
                    links::messages(&mut caller.wire).iter().for_each(|bytes| hear(node, bytes));
                } else {
                    clients::lines(&mut caller.wire).into_iter().for_each(|line| self.ask(node, number, line));
                }
            }
        }
        Ok(())
    }

    /// A line asks the node. A command is answered once it is decided.
    fn ask(&mut self, node: &mut Node, number: u64, line: Option<Line>) {
        let said = match line {
            Some(Line::Command { client, seq, kind, name, with }) => match submit(node, client, seq, &kind, &name, &with) {
                Ok(()) => {
                    self.waiting.insert((client, seq), number);
                    self.callers.get_mut(&number).into_iter().for_each(|caller| caller.waits += 1);
                    return;
                }
                Err(refusal) => Err(refusal),
            },
            Some(Line::Look(name)) => look(node, &name),
            Some(Line::List) => list(node),
            Some(Line::Count) => node.status().map(|status| status.decided.to_string()),
            None => Ok("what?".into()),
        };
        self.say(number, &said.unwrap_or_else(|refusal| refusal.to_string()));
    }

    /// A caller that is gone isn't told.
    fn say(&mut self, number: u64, text: &str) {
        if let Some(caller) = self.callers.get_mut(&number) {
            caller.wire.put(format!("{text}\n").as_bytes());
        }
    }

    fn answer(&mut self, ack: Ack) {
        if let Some(number) = self.waiting.remove(&(ack.client, ack.seq)) {
            self.callers.get_mut(&number).into_iter().for_each(|caller| caller.waits -= 1);
            self.say(number, &format!("{:?}", ack.reply));
        }
    }

    /// Does all that is due: the next write, messages and answers. While a write is under way no other one is due.
    fn serve(&mut self, node: &mut Node) -> Result<(), Refusal> {
        loop {
            while !self.areas.is_busy {
                let Some(due) = node.due()? else { break };
                if let Some(is_made) = self.areas.write(due.area, due.at, due.bytes) {
                    node.done(is_made)?;
                }
            }
            if !node.is_up() {
                return Ok(());
            }
            while let Some(message) = node.next_message()? {
                self.links.get_mut(&message.to).into_iter().for_each(|link| link.send(message.bytes));
            }
            while let Some(ack) = node.next_ack()? {
                self.answer(ack);
            }
            // What the node has told itself may want a write.
            if self.areas.is_busy || node.due()?.is_none() {
                return Ok(());
            }
        }
    }

    /// Sends what is to leave, and forgets who is gone.
    fn flush(&mut self) {
        self.links.values_mut().for_each(Link::flush);
        self.callers.retain(|_, caller| {
            caller.wire.flush();
            !caller.wire.is_broken && (!caller.wire.has_ended || caller.waits > 0 || !caller.wire.is_empty())
        });
    }
}

impl Process {
    /// An opening may write, too. Nobody is heard before it has ended.
    fn open(&mut self, node: &mut Node) -> Result<(), Box<dyn Error>> {
        self.serve(node)?;
        while !node.is_up() {
            node.done(self.areas.end()?)?;
            self.serve(node)?;
        }
        Ok(())
    }

    /// The loop of a host.
    fn run(&mut self, node: &mut Node, behind: Option<u8>) -> Result<(), Box<dyn Error>> {
        let mut ticks = 0;
        let mut room = vec![0; 1 << 16];
        let mut next = Instant::now();
        loop {
            self.serve(node)?;
            self.flush();
            for source in self.wait(next.saturating_duration_since(Instant::now()))? {
                self.take(node, source, &mut room)?;
            }
            if next <= Instant::now() {
                next = Instant::now() + TICK;
                self.links.values_mut().for_each(Link::connect);
                node.tick()?;
                ticks += 1;
                if let (Some(number), CONNECTED) = (behind, ticks) {
                    ask_where_others_are(node, number)?;
                }
            }
        }
    }
}

/// A message came.
fn hear(node: &mut Node, bytes: &[u8]) {
    match node.hear(bytes) {
        Ok(()) | Err(Refusal::OutOfMemory) => (),
        Err(refusal) => eprintln!("a message is {refusal}"),
    }
}

fn submit(node: &mut Node, client: u32, seq: u64, kind: &str, name: &str, with: &str) -> Result<(), Refusal> {
    let (name, value) = (name.as_bytes(), with.as_bytes());
    let op = match kind {
        "claim" => Op::Claim(name, value),
        "update" => Op::Update(name, value),
        "release" => Op::Release(name),
        _ => Op::Transfer(name, with.parse().map_err(|_| Refusal::BadValue)?),
    };
    node.submit(client, seq, op)
}

fn look(node: &mut Node, name: &str) -> Result<String, Refusal> {
    Ok(match node.look(name.as_bytes())? {
        None => "free".into(),
        Some(holding) => format!("{} {}", holding.owner, String::from_utf8_lossy(&holding.value)),
    })
}

fn list(node: &mut Node) -> Result<String, Refusal> {
    let text = |bytes: &[u8]| String::from_utf8_lossy(bytes).into_owned();
    let words = node.list()?.into_iter().map(|it| format!("{}={}:{}", text(&it.name), it.holding.owner, text(&it.holding.value)));
    Ok(words.collect::<Vec<_>>().join(" "))
}

/// A process that comes back asks for a command that changes nothing: so its node learns how far the others are, also where nobody else asks.
/// The number of the request is the time, since none may come twice.
fn ask_where_others_are(node: &mut Node, number: u8) -> Result<(), Box<dyn Error>> {
    let seq = SystemTime::now().duration_since(UNIX_EPOCH)?.as_nanos() as u64;
    let own = OWN + u32::from(number);
    Ok(node.submit(own, seq, Op::Transfer(b"sync", own))?)
}

fn run(nodes: u8, number: u8, folder: &Path, port: u16, is_new: bool) -> Result<(), Box<dyn Error>> {
    let (areas, bytes) = Areas::open(folder)?;
    let mut node = Node::open(nodes, number, &bytes[0], &bytes[1], is_new)?;
    let listen = |port: u16| -> io::Result<TcpListener> {
        let listener = TcpListener::bind(("127.0.0.1", port + u16::from(number)))?;
        listener.set_nonblocking(true)?;
        Ok(listener)
    };
    let mut process = Process {
        areas,
        listeners: [listen(port)?, listen(port + 100)?],
        links: (0..nodes).filter(|&to| to != number).map(|to| (to, Link::new(port + u16::from(to)))).collect(),
        callers: BTreeMap::new(),
        waiting: HashMap::new(),
        count: 0,
    };
    process.open(&mut node)?;
    println!("node {number} of {nodes} is up: {} commands are decided", node.status()?.decided);
    process.run(&mut node, (!is_new).then_some(number))
}

fn main() -> Result<(), Box<dyn Error>> {
    let words: Vec<String> = std::env::args().skip(1).collect();
    let [nodes, number, folder, port, rest @ ..] = &words[..] else {
        return Err("three_processes NODES NODE FOLDER PORT [new]".into());
    };
    run(nodes.parse()?, number.parse()?, Path::new(folder), port.parse()?, rest == ["new"])
}
