//! Random schedules in which something happens.

use std::collections::{BTreeMap, BTreeSet, HashMap, HashSet};

use crate::cluster::Cluster;
use crate::draw::{run_line, Pcg32};
use crate::node::Stance;
use crate::types::{Body, Fact, Message, NodeSet, Place, RequestNo};

/// How many requests may be undecided before clients ask for no more.
const UNDECIDED: usize = 16;

/// How often a step may draw: of each of seven nodes three events that would
/// change nothing, and one that does.
const DRAWS: u32 = 22;

/// What a node may do next, with its weight.
const HEAR: u32 = 32;
const SEND: u32 = 32;
const CALL: u32 = 32;
const MARK: u32 = 32;
const ACK: u32 = 16;
const TAKE: u32 = 4;
const SUBMIT: u32 = 16;
const TRUST: u32 = 8;
const TICK: u32 = 8;

/// What the drawing remembers of a node.
#[derive(Default)]
struct Memory {
    /// The messages for it but Decisions that it hasn't heard and that aren't lost.
    unheard: Vec<u32>,
    /// By their instances, the Decisions for it of what it hasn't decided:
    /// those to be heard, and those that it has heard since it is up.
    decisions: BTreeMap<u32, u32>,
    heard: BTreeMap<u32, u32>,
    /// The instances that its marked facts decide.
    decided: BTreeSet<u32>,
    /// How many of them there are from 0 on without a gap.
    prefix: u32,
    /// Of undecided instances, the round that its own messages named last.
    rounds: BTreeMap<u32, u32>,
    /// Whose estimates and acknowledgements it has heard since it is up, by
    /// instance and round.
    estimates: HashMap<(u32, u32), NodeSet>,
    acks: HashMap<(u32, u32), NodeSet>,
    /// The new requests that it was asked for since it is up and that nobody
    /// has decided.
    asked: HashSet<RequestNo>,
    /// Whether it may have facts to flush, a message to send, a request to
    /// acknowledge.
    may_take: bool,
    may_send: bool,
    may_ack: bool,
    /// Whether it was told last to suspect a node.
    suspects: bool,
}

impl Memory {
    /// A message for it was sent.
    fn expect(&mut self, number: u32, body: &Body) {
        match body {
            Body::Decision { instance, .. } => {
                if !self.decided.contains(instance) && !self.heard.contains_key(instance) {
                    self.decisions.insert(*instance, number);
                }
            }
            _ => self.unheard.push(number),
        }
    }

    fn may_hear(&self) -> bool {
        !self.unheard.is_empty() || !self.decisions.is_empty()
    }

    /// It goes down, or begins to open its disk.
    fn stop(&mut self) {
        self.may_take = false;
        self.may_send = true;
        self.may_ack = false;
        self.suspects = false;
        self.estimates.clear();
        self.acks.clear();
        self.asked.clear();
        let heard = std::mem::take(&mut self.heard);
        self.decisions.extend(heard);
    }

    /// It has sent a message: which tells the round of an instance.
    fn tell(&mut self, body: &Body) {
        if let Body::Estimate { instance, round, .. } | Body::Ack { instance, round } = body {
            self.rounds.insert(*instance, *round);
        }
    }

    /// It hears a message.
    fn hear(&mut self, message: &Message) {
        self.may_take = true;
        let (votes, instance, round) = match &message.body {
            Body::Estimate { instance, round, .. } => (&mut self.estimates, *instance, *round),
            Body::Ack { instance, round } => (&mut self.acks, *instance, *round),
            Body::Ask { .. } => {
                self.may_send = true;
                return;
            }
            _ => return,
        };
        *votes.entry((instance, round)).or_default() |= 1 << message.from;
        self.may_send |= matches!(message.body, Body::Estimate { .. });
    }

    /// Whether it does nothing when it hears this: the instance is decided, or
    /// a majority has said the same.
    fn has_enough(&self, place: Place, body: &Body) -> bool {
        let is_heard = |votes: &HashMap<(u32, u32), NodeSet>, instance: u32, round: u32| {
            let senders = votes.get(&(instance, round));
            senders.is_some_and(|senders| place.is_majority(senders.count_ones()))
        };
        match body {
            Body::Estimate { instance, round, .. } => {
                !self.decided.contains(instance) && is_heard(&self.estimates, *instance, *round)
            }
            Body::Ack { instance, round } => {
                self.decided.contains(instance) || is_heard(&self.acks, *instance, *round)
            }
            Body::Proposal { instance, .. } | Body::Nack { instance, .. } => {
                self.decided.contains(instance)
            }
            _ => false,
        }
    }

    /// Its marked facts decide an instance.
    fn decide(&mut self, instance: u32) {
        self.may_ack = true;
        self.decisions.remove(&instance);
        self.heard.remove(&instance);
        self.rounds.remove(&instance);
        self.decided.insert(instance);
        while self.decided.contains(&self.prefix) {
            self.prefix += 1;
        }
    }

    /// Whether others have decided its first undecided instance, and it has
    /// heard no Decision of it.
    fn lags(&self, prefix: u32) -> bool {
        self.prefix < prefix && !self.heard.contains_key(&self.prefix)
    }

    /// An input came, after which it may have something to flush or to send.
    fn stir(&mut self) {
        self.may_take = true;
        self.may_send = true;
    }
}

struct Drawing {
    nodes: u8,
    memories: Vec<Memory>,
    /// The instances that some node has decided, and how many of them there are
    /// from 0 on without a gap.
    decided: BTreeSet<u32>,
    prefix: u32,
    /// How many requests were made.
    requests: u64,
    /// How often nobody had anything to do.
    quiet: u32,
}

/// The text of the schedule that a seed draws.
pub fn draw(seed: u64, steps: u32, nodes: u8, faults: u32) -> String {
    let mut generator = Pcg32::of_seed(seed);
    let mut cluster = Cluster::new(nodes);
    let mut text = format!("nodes {nodes}\n");
    let mut line = 2;
    for p in 0..nodes {
        happen(&mut cluster, nodes, &mut line, &mut text, &format!("restart {p}"));
        for _ in 0..9 {
            happen(&mut cluster, nodes, &mut line, &mut text, &format!("dev {p}"));
        }
    }
    let mut drawing = Drawing::new(nodes);
    for _ in 0..steps {
        let (a, b) = (generator.word(), generator.word());
        let from = (a / 1000 % u32::from(nodes)) as u8;
        if a % 1000 < faults {
            if let Some((p, event)) = drawing.fault(&cluster, from, b) {
                let kept = happen(&mut cluster, nodes, &mut line, &mut text, &event);
                drawing.learn(&cluster, p, &event, kept);
                continue;
            }
        }
        for _ in 0..DRAWS {
            let (p, event) = drawing.plan(&cluster, from, b);
            let kept = happen(&mut cluster, nodes, &mut line, &mut text, &event);
            drawing.learn(&cluster, p, &event, kept);
            if kept {
                break;
            }
        }
    }
    text
}

/// An event happens, and stands in the schedule unless it changes nothing. Answers whether it does.
fn happen(
    cluster: &mut Cluster,
    nodes: u8,
    line: &mut u32,
    text: &mut String,
    event: &str,
) -> bool {
    let told = cluster.told();
    run_line(cluster, nodes, *line, false, &format!("{event}\n"));
    let node = event.split(' ').nth(1).and_then(|p| p.parse().ok());
    let stays = match event.split(' ').next() {
        Some("send" | "ack") => true,
        Some("take") => node.is_some_and(|p| cluster.node(p).stance() == Stance::Resting),
        _ => false,
    };
    if stays && cluster.told() == told {
        return false;
    }
    text.push_str(event);
    text.push('\n');
    *line += 1;
    true
}

fn is_up(stance: Stance) -> bool {
    matches!(stance, Stance::Resting | Stance::Calling | Stance::Flushed)
}

fn is_down(stance: Stance) -> bool {
    matches!(stance, Stance::Down | Stance::Failed)
}

fn has_call(stance: Stance) -> bool {
    matches!(stance, Stance::Opening | Stance::Calling)
}

impl Drawing {
    fn new(nodes: u8) -> Self {
        Drawing {
            nodes,
            memories: (0..nodes).map(|_| Memory::default()).collect(),
            decided: BTreeSet::new(),
            prefix: 0,
            requests: 0,
            quiet: 0,
        }
    }

    fn memory(&mut self, node: u8) -> &mut Memory {
        &mut self.memories[usize::from(node)]
    }

    /// The first node, counted from this one on, that waits for such a thing.
    fn first_from(
        &self,
        cluster: &Cluster,
        from: u8,
        test: impl Fn(Stance) -> bool,
    ) -> Option<u8> {
        let mut around = (0..self.nodes).map(|k| (from + k) % self.nodes);
        around.find(|&p| test(cluster.node(p).stance()))
    }

    /// What came of an event: whether it stands in the schedule, or changed nothing.
    fn learn(&mut self, cluster: &Cluster, p: u8, event: &str, kept: bool) {
        let memory = self.memory(p);
        match event.split(' ').next() {
            Some("send") => {
                memory.may_send = kept;
                if kept {
                    let number = cluster.wire().len() - 1;
                    let message = &cluster.wire()[number];
                    self.memory(p).tell(&message.body);
                    self.memory(message.to).expect(number as u32, &message.body);
                }
            }
            Some("ack") => memory.may_ack = kept,
            Some("take") => memory.may_take = kept,
            _ => (),
        }
        if !is_up(cluster.node(p).stance()) {
            self.memory(p).stop();
        }
    }

    /// The next event without a fault.
    fn plan(&mut self, cluster: &Cluster, from: u8, b: u32) -> (u8, String) {
        for k in 0..self.nodes {
            let p = (from + k) % self.nodes;
            if let Some(event) = self.act(cluster, p, b) {
                return (p, event);
            }
        }
        self.stir(cluster, from, b)
    }

    /// What a node does next, if there is something.
    fn act(&mut self, cluster: &Cluster, p: u8, b: u32) -> Option<String> {
        let stance = cluster.node(p).stance();
        if is_down(stance) {
            return self.restart(cluster, p, b);
        }
        if stance == Stance::Opening {
            return Some(format!("dev {p}"));
        }
        self.forget_idle(cluster, p, b / 4096);
        self.choose(cluster, p, stance, b)
    }

    /// A node that is down is restarted at times, the second one and those beyond a minority at once.
    fn restart(&self, cluster: &Cluster, p: u8, b: u32) -> Option<String> {
        let up = (0..self.nodes).filter(|&q| !is_down(cluster.node(q).stance()));
        if p != 1 % self.nodes && up.count() > usize::from(self.nodes) / 2 && b / 256 % 256 != 0 {
            return None;
        }
        Some(format!("restart {p}"))
    }

    /// Messages that would do nothing are forgotten, up to one that would do something.
    fn forget_idle(&mut self, cluster: &Cluster, p: u8, pick: u32) {
        let place = Place {
            node: p,
            nodes: self.nodes,
        };
        let memory = self.memory(p);
        while !memory.unheard.is_empty() {
            let at = pick as usize % memory.unheard.len();
            let body = &cluster.wire()[memory.unheard[at] as usize].body;
            if !memory.has_enough(place, body) {
                return;
            }
            memory.unheard.swap_remove(at);
        }
    }

    /// Whether some node that is up has something to hear or maybe to send.
    fn is_busy(&self, cluster: &Cluster) -> bool {
        (0..self.nodes).any(|p| {
            let memory = &self.memories[usize::from(p)];
            is_up(cluster.node(p).stance()) && (memory.may_send || memory.may_hear())
        })
    }

    /// Whether clients may ask for a new command.
    fn may_submit(&self) -> bool {
        let asked: usize = self.memories.iter().map(|memory| memory.asked.len()).sum();
        asked + self.decided.len() - (self.prefix as usize) < UNDECIDED
    }

    /// What a node that is up does next, by weights.
    fn choose(&mut self, cluster: &Cluster, p: u8, stance: Stance, b: u32) -> Option<String> {
        let memory = &self.memories[usize::from(p)];
        let detail = b / 256;
        let is_calm = !self.is_busy(cluster);
        let may = [
            (memory.may_hear(), HEAR),
            (memory.may_send, SEND),
            (stance == Stance::Calling, CALL),
            (stance == Stance::Flushed, MARK),
            (memory.may_ack, ACK),
            (
                stance == Stance::Resting
                    && memory.may_take
                    && (is_calm || detail % 1024 == 0),
                TAKE,
            ),
            (self.may_submit(), SUBMIT),
            (memory.suspects, TRUST),
            (is_calm && detail % 16 == 0 && memory.lags(self.prefix), TICK),
        ];
        let sum: u32 = may.iter().filter(|(may, _)| *may).map(|(_, weight)| weight).sum();
        if sum == 0 {
            return None;
        }
        let mut left = b % sum;
        for (kind, (may, weight)) in may.into_iter().enumerate() {
            if !may {
                continue;
            }
            if left < weight {
                return Some(self.event_of(cluster, p, kind, detail));
            }
            left -= weight;
        }
        None
    }

    fn event_of(&mut self, cluster: &Cluster, p: u8, kind: usize, detail: u32) -> String {
        match kind {
            0 => self.hear(cluster, p, detail),
            1 => format!("send {p}"),
            2 => format!("dev {p}"),
            3 => self.mark(cluster, p),
            4 => format!("ack {p}"),
            5 => format!("take {p}"),
            6 => self.submit(p, detail),
            7 => {
                self.memory(p).stir();
                self.memory(p).suspects = false;
                format!("suspect {p} -")
            }
            _ => {
                self.memory(p).stir();
                format!("tick {p}")
            }
        }
    }

    /// The node hears the Decision of the lowest instance, or else some message that it may hear again.
    fn hear(&mut self, cluster: &Cluster, p: u8, detail: u32) -> String {
        let memory = self.memory(p);
        if let Some((instance, number)) = memory.decisions.pop_first() {
            memory.heard.insert(instance, number);
            memory.may_take = true;
            return format!("hear {p} {number}");
        }
        let at = (detail / 16) as usize % memory.unheard.len();
        let number = memory.unheard[at];
        if detail % 16 != 0 {
            memory.unheard.swap_remove(at);
        }
        memory.hear(&cluster.wire()[number as usize]);
        format!("hear {p} {number}")
    }

    fn mark(&mut self, cluster: &Cluster, p: u8) -> String {
        self.memory(p).may_send = true;
        for fact in cluster.node(p).synced() {
            if let Fact::Decide { instance, command } = fact {
                self.memory(p).decide(*instance);
                self.decided.insert(*instance);
                for memory in &mut self.memories {
                    memory.asked.remove(&command.request);
                }
            }
        }
        while self.decided.contains(&self.prefix) {
            self.prefix += 1;
        }
        format!("mark {p}")
    }

    /// A client asks for a new command, or again for one of the last eight.
    fn submit(&mut self, p: u8, detail: u32) -> String {
        let is_again = detail % 8 == 0 && self.requests > 0;
        let number = if is_again {
            self.requests - 1 - u64::from(detail / 8) % self.requests.min(8)
        } else {
            self.requests += 1;
            self.requests - 1
        };
        let (client, seq) = (number % 4, number / 4 + 1);
        let name = b"abcde"[(number % 5) as usize] as char;
        let op = match number / 4 % 4 {
            0 => format!("claim {name} {}", number % 10),
            1 => format!("update {name} {}", number % 10),
            2 => format!("transfer {name} {}", (number + 1) % 4),
            _ => format!("release {name}"),
        };
        let memory = self.memory(p);
        memory.stir();
        if is_again {
            memory.may_ack = true;
        } else {
            memory.asked.insert(RequestNo { client: client as u32, seq });
        }
        format!("submit {p} {client} {seq} {op}")
    }

    /// Nobody has anything to do: a node is restarted, or a client asks for a new
    /// command, or a node is helped that is behind the others, or all nodes tick
    /// in turn.
    fn stir(&mut self, cluster: &Cluster, from: u8, b: u32) -> (u8, String) {
        if let Some(p) = self.first_from(cluster, from, is_down) {
            return (p, format!("restart {p}"));
        }
        if b / 256 % 32 == 0 {
            for memory in &mut self.memories {
                memory.asked.clear();
            }
            return (from, self.submit(from, 1));
        }
        if let Some(p) = self.first_behind(from) {
            let instance = self.prefix;
            *self.memory(p).rounds.entry(instance).or_default() += 1;
            self.memory(p).stir();
            return (p, format!("advance {p}"));
        }
        let p = (self.quiet % u32::from(self.nodes)) as u8;
        self.quiet = self.quiet.wrapping_add(1);
        self.memory(p).stir();
        (p, format!("tick {p}"))
    }

    /// The first node, counted from this one on, whose round of the first
    /// undecided instance lies below another node's.
    fn first_behind(&self, from: u8) -> Option<u8> {
        let round = |p: u8| self.memories[usize::from(p)].rounds.get(&self.prefix);
        let last = (0..self.nodes).filter_map(round).max()?;
        let mut around = (0..self.nodes).map(|k| (from + k) % self.nodes);
        around.find(|&p| round(p).is_some_and(|round| round < last))
    }

    /// An event with a fault, if it has a place; or a message is lost.
    fn fault(&mut self, cluster: &Cluster, from: u8, b: u32) -> Option<(u8, String)> {
        let (kind, detail) = (b % 64, b / 64);
        let p = self.first_from(cluster, from, |stance| match kind {
            0..=3 => has_call(stance),
            4..=16 => is_up(stance),
            17..=31 => stance == Stance::Resting,
            32..=47 => !is_down(stance),
            _ => !is_up(stance),
        })?;
        let event = match kind {
            0..=1 => crash(p, detail),
            2..=3 => format!("fail {p} {:02X}", detail % 256),
            4..=11 => {
                self.lose(p, detail);
                return None;
            }
            12..=14 => self.suspect(p, detail),
            15 if self.leads(p) => return None,
            15 => {
                self.memory(p).stir();
                format!("advance {p}")
            }
            16 => {
                self.memory(p).stir();
                format!("tick {p}")
            }
            17..=31 => format!("snap {p}"),
            32..=47 => format!("restart {p}"),
            _ => format!("tick {p}"),
        };
        Some((p, event))
    }

    /// Whether a node coordinates the first round of each instance, and isn't the only one.
    fn leads(&self, p: u8) -> bool {
        self.nodes > 1 && p == 1
    }

    /// A node suspects one that doesn't coordinate first rounds, where there are several.
    fn suspect(&mut self, p: u8, detail: u32) -> String {
        let drawn = (detail % u32::from(self.nodes)) as u8;
        let suspected = if self.leads(drawn) { 0 } else { drawn };
        self.memory(p).stir();
        self.memory(p).suspects = true;
        format!("suspect {p} {suspected}")
    }

    fn lose(&mut self, p: u8, detail: u32) {
        let unheard = &mut self.memory(p).unheard;
        if !unheard.is_empty() {
            let at = detail as usize % unheard.len();
            unheard.swap_remove(at);
        }
    }
}

fn crash(p: u8, detail: u32) -> String {
    let cut = match detail / 256 % 4 {
        0 => 0,
        1 => u32::MAX,
        _ => detail / 1024 % 4096,
    };
    format!("crash {p} {cut} {cut} {:02X}", detail % 256)
}
