//! What a node knows and does: consensus by rotating coordinators (Chandra and
//! Toueg 1996), one instance after another, with the facts that a node keeps
//! over a crash (Aguilera, Chen and Toueg 2000).

use std::collections::{HashSet, VecDeque};

use crate::detector::Detector;
use crate::journal::Content;
use crate::promise::{Promise, Standing};
use crate::queues::{Outbox, Pool};
use crate::registry::{Registry, Waiting};
use crate::types::{
    Body, Fact, Message, NodeId, NodeSet, Place, Refusal, Reply, RequestNo, SharedCommand, GROUP,
    INSTANCES, LAST_ROUND, MAX_NODES, WINDOW,
};

/// An estimate that a coordinator has heard.
#[derive(Clone)]
struct Vote {
    stamp: u32,
    command: SharedCommand,
}

/// What a coordinator has heard in the present round.
#[derive(Default)]
struct Tally {
    estimates: [Option<Vote>; MAX_NODES],
    acks: NodeSet,
    nacks: NodeSet,
}

impl Tally {
    /// The first estimate of a sender is kept.
    fn keep(&mut self, sender: NodeId, vote: Vote) {
        self.estimates[usize::from(sender)].get_or_insert(vote);
    }

    fn count(&self) -> u32 {
        self.estimates.iter().flatten().count() as u32
    }

    /// The command of the largest stamp, of those the lowest node's.
    fn best(&self) -> Option<&SharedCommand> {
        let votes = self.estimates.iter().flatten();
        let best = votes.reduce(|best, vote| if vote.stamp > best.stamp { vote } else { best });
        best.map(|vote| &vote.command)
    }
}

/// An undecided instance in a round, with the numbers of the facts that back
/// what the node says of it.
struct OpenInstance {
    round: u32,
    stamp: u32,
    estimate: SharedCommand,
    proposal: Option<SharedCommand>,
    entered: u64,
    proposed: u64,
    adopted: u64,
    tally: Tally,
}

/// Where an instance stands by all facts, staged ones included.
#[derive(Default)]
enum Slot {
    #[default]
    Unnamed,
    Open(Box<OpenInstance>),
    Decided {
        command: SharedCommand,
        fact: u64,
    },
}

/// The instances by their numbers, with the lowest undecided ones.
#[derive(Default)]
struct Instances {
    slots: Vec<Slot>,
    /// The lowest undecided instances, ascending.
    window: Vec<u32>,
    /// The first instance behind those that the window has looked at.
    window_end: u32,
    highest_decided: Option<u32>,
    decided_requests: HashSet<RequestNo>,
}

impl Instances {
    fn restored(promise: &Promise, next: u64) -> Self {
        let mut instances = Instances::default();
        for (instance, standing) in promise.entries() {
            instances.restore(instance, standing, next.saturating_sub(1));
        }
        instances.fill_window();
        instances
    }

    /// Facts from before count as this one.
    fn restore(&mut self, instance: u32, standing: &Standing, fact: u64) {
        match standing {
            Standing::Decided(command) => self.note_decided(instance, command.clone(), fact),
            Standing::Open(open) => {
                *self.slot_mut(instance) = Slot::Open(Box::new(OpenInstance {
                    round: open.round,
                    stamp: open.stamp,
                    estimate: open.estimate.clone(),
                    proposal: open.proposal.clone(),
                    entered: fact,
                    proposed: fact,
                    adopted: fact,
                    tally: Tally::default(),
                }));
            }
        }
    }

    fn slot(&self, instance: u32) -> &Slot {
        self.slots.get(instance as usize).unwrap_or(&Slot::Unnamed)
    }

    fn slot_mut(&mut self, instance: u32) -> &mut Slot {
        let place = instance as usize;
        if place >= self.slots.len() {
            self.slots.resize_with(place + 1, Slot::default);
        }
        &mut self.slots[place]
    }

    fn open(&self, instance: u32) -> Option<&OpenInstance> {
        match self.slot(instance) {
            Slot::Open(open) => Some(open),
            _ => None,
        }
    }

    fn open_mut(&mut self, instance: u32) -> Option<&mut OpenInstance> {
        match self.slots.get_mut(instance as usize)? {
            Slot::Open(open) => Some(open),
            _ => None,
        }
    }

    fn is_decided(&self, instance: u32) -> bool {
        matches!(self.slot(instance), Slot::Decided { .. })
    }

    /// The present round; 0 where there is none.
    fn round(&self, instance: u32) -> u32 {
        self.open(instance).map_or(0, |open| open.round)
    }

    fn is_in_window(&self, instance: u32) -> bool {
        self.window.contains(&instance)
    }

    /// The lowest undecided instance.
    fn first_undecided(&self) -> u32 {
        self.window.first().copied().unwrap_or(INSTANCES)
    }

    fn note_decided(&mut self, instance: u32, command: SharedCommand, fact: u64) {
        self.decided_requests.insert(command.request);
        *self.slot_mut(instance) = Slot::Decided { command, fact };
        self.highest_decided = self.highest_decided.max(Some(instance));
    }

    fn decide(&mut self, instance: u32, command: SharedCommand, fact: u64) {
        self.note_decided(instance, command, fact);
        if let Some(at) = self.window.iter().position(|&i| i == instance) {
            self.window.remove(at);
            self.fill_window();
        }
    }

    fn fill_window(&mut self) {
        while self.window.len() < WINDOW && self.window_end < INSTANCES {
            if !self.is_decided(self.window_end) {
                self.window.push(self.window_end);
            }
            self.window_end += 1;
        }
    }

    /// Whether a command is the estimate of an instance in the window.
    fn is_estimate(&self, command: &SharedCommand) -> bool {
        self.window
            .iter()
            .filter_map(|&i| self.open(i))
            .any(|open| open.estimate == *command)
    }

    /// Whether the first undecided instance has a round, or a later one is decided.
    fn is_behind(&self) -> bool {
        let first = self.first_undecided();
        first < INSTANCES && (self.round(first) > 0 || self.highest_decided > Some(first))
    }
}

/// What a node does of its own accord.
enum Due {
    Begin(u32),
    Propose(u32, SharedCommand),
    Decide(u32, SharedCommand),
    MoveOn(u32),
}

/// A node that is up, apart from its disk.
pub struct Core {
    place: Place,
    instances: Instances,
    /// The marked facts, and how many they are.
    marked: Promise,
    marked_end: u64,
    /// The facts of the group that is being flushed, and those behind it.
    running: Vec<Fact>,
    staged: VecDeque<Fact>,
    next_fact: u64,
    pool: Pool,
    suspects: NodeSet,
    detector: Detector,
    /// The registry of the decided prefix of the marked facts, and its length.
    registry: Registry,
    prefix: u32,
    waiting: Waiting,
    outbox: Outbox,
}

impl Core {
    /// A node that knows its marked facts and owes the restatement of its open
    /// instances.
    pub fn start(place: Place, content: Content) -> Self {
        let mut core = Core {
            place,
            instances: Instances::restored(&content.promise, content.next),
            marked: content.promise,
            marked_end: content.next,
            running: Vec::new(),
            staged: VecDeque::new(),
            next_fact: content.next,
            pool: Pool::default(),
            suspects: 0,
            detector: Detector::new(place),
            registry: Registry::default(),
            prefix: 0,
            waiting: Waiting::default(),
            outbox: Outbox::default(),
        };
        core.extend_prefix();
        core.restate_all();
        core
    }

    pub fn registry(&self) -> &Registry {
        &self.registry
    }

    /// How many instances from 0 on the marked facts decide without a gap.
    pub fn prefix(&self) -> u32 {
        self.prefix
    }

    /// The marked facts, and how many they are.
    pub fn marked(&self) -> (&Promise, u64) {
        (&self.marked, self.marked_end)
    }

    // Inputs

    /// A client submits a command.
    pub fn submit(&mut self, command: SharedCommand) -> Result<(), Refusal> {
        let request = command.request;
        if self.is_full_for(request) {
            return Err(Refusal::ListFull);
        }
        let is_waiting = self.waiting.contains(request);
        self.waiting.push(request);
        if self.registry.reply(request).is_some() {
            self.waiting.make_due(request);
        } else if !is_waiting {
            self.add_to_pool(&command);
            self.owe_others(Body::Request { command }, None);
        }
        self.settle();
        Ok(())
    }

    /// The failure detector's output changes.
    pub fn suspect(&mut self, set: NodeSet) {
        self.suspects = set;
        self.settle();
    }

    /// The heartbeat detector ticks; the node says again where it stands.
    pub fn tick(&mut self) {
        self.detector.tick();
        self.owe_others(Body::Beat, None);
        self.owe_everyone(
            Body::Suspects {
                set: self.detector.suspects(self.place),
            },
            None,
        );
        self.restate_all();
        if self.instances.is_behind() {
            self.owe_others(self.question(), None);
        }
        self.settle();
    }

    /// The lowest open instance that has a round enters the next one.
    pub fn advance(&mut self) -> Result<(), Refusal> {
        if self.is_in_last_round() {
            return Err(Refusal::RoundsOut);
        }
        if let Some(instance) = self.lowest_in_round() {
            self.enter(instance, self.instances.round(instance) + 1, None);
        }
        self.settle();
        Ok(())
    }

    /// Whether a command with this request number is refused: it is new, and all instances are decided.
    pub fn is_full_for(&self, request: RequestNo) -> bool {
        self.instances.window.is_empty()
            && !self.instances.decided_requests.contains(&request)
            && !self.waiting.contains(request)
    }

    /// Whether an advance is refused: its instance is in the last round.
    pub fn is_in_last_round(&self) -> bool {
        self.lowest_in_round()
            .is_some_and(|instance| self.instances.round(instance) == LAST_ROUND)
    }

    fn lowest_in_round(&self) -> Option<u32> {
        let mut window = self.instances.window.iter().copied();
        window.find(|&i| self.instances.round(i) > 0)
    }

    /// A message for this node arrives.
    pub fn hear(&mut self, message: &Message) {
        let from = message.from;
        match &message.body {
            Body::Estimate {
                instance,
                round,
                stamp,
                command,
            } => {
                let vote = Vote {
                    stamp: *stamp,
                    command: command.clone(),
                };
                self.hear_estimate(from, *instance, *round, vote);
            }
            Body::Proposal {
                instance,
                round,
                command,
            } => {
                self.hear_proposal(from, *instance, *round, command);
            }
            Body::Ack { instance, round } => {
                if let Some(tally) = self.proposed_tally(*instance, *round) {
                    tally.acks |= 1 << from;
                }
            }
            Body::Nack { instance, round } => {
                if let Some(tally) = self.proposed_tally(*instance, *round) {
                    tally.nacks |= 1 << from;
                }
            }
            Body::Decision { instance, command } => {
                if !self.instances.is_decided(*instance) {
                    self.conclude(*instance, command.clone());
                }
            }
            Body::Request { command } => self.add_to_pool(command),
            Body::Beat => self.detector.beat(from),
            Body::Suspects { set } => self.suspects = (self.suspects | set) & !(1 << from),
            Body::Ask { instance } => self.answer(*instance, from),
        }
        self.settle();
    }

    fn hear_estimate(&mut self, from: NodeId, instance: u32, round: u32, vote: Vote) {
        if self.instances.is_decided(instance) {
            self.answer(instance, from);
        } else if !self.instances.is_in_window(instance) {
            self.owe(from, self.question(), None);
        } else if self.place.coordinates(round) {
            self.add_to_pool(&vote.command);
            self.catch_up(instance, round, &vote.command);
            if let Some(open) = self.instances.open_mut(instance) {
                if open.round == round {
                    open.tally.keep(from, vote);
                }
            }
        }
    }

    fn hear_proposal(&mut self, from: NodeId, instance: u32, round: u32, command: &SharedCommand) {
        if self.instances.is_decided(instance) {
            return;
        }
        if !self.instances.is_in_window(instance) {
            self.owe(from, self.question(), None);
        } else if self.place.coordinator(round) == from {
            self.add_to_pool(command);
            self.catch_up(instance, round, command);
            self.adopt(instance, round, command, from);
        }
    }

    /// The tally of an open instance, where the node has proposed in its
    /// present round and that is this one.
    fn proposed_tally(&mut self, instance: u32, round: u32) -> Option<&mut Tally> {
        if !self.instances.is_in_window(instance) {
            return None;
        }
        let open = self.instances.open_mut(instance)?;
        (open.round == round && open.proposal.is_some()).then_some(&mut open.tally)
    }

    // Flushing facts

    /// The group that a flush takes: the oldest staged facts, with the number
    /// of the first; None where nothing is staged.
    pub fn next_group(&self) -> Option<(u64, impl ExactSizeIterator<Item = &Fact>)> {
        let facts = self.staged.range(..self.staged.len().min(GROUP));
        (!self.staged.is_empty()).then_some((self.marked_end, facts))
    }

    /// Whether a group runs that isn't marked yet.
    pub fn has_running(&self) -> bool {
        !self.running.is_empty()
    }

    /// The facts of the group that runs.
    pub fn running(&self) -> &[Fact] {
        &self.running
    }

    /// That group runs.
    pub fn take_group(&mut self) {
        self.running
            .extend(self.staged.drain(..self.staged.len().min(GROUP)));
    }

    /// The facts of the running group are marked.
    pub fn mark(&mut self) {
        self.marked_end += self.running.len() as u64;
        for fact in self.running.drain(..) {
            self.marked.take_on(fact);
        }
        self.extend_prefix();
        self.outbox.release(self.marked_end);
    }

    fn extend_prefix(&mut self) {
        while let Some(Standing::Decided(command)) = self.marked.at(self.prefix) {
            self.registry.apply(command);
            self.waiting.make_due(command.request);
            self.prefix += 1;
        }
    }

    // Outputs

    /// The oldest owed message that may leave, which leaves.
    pub fn next_message(&mut self) -> Option<Message> {
        self.outbox.pop()
    }

    /// The oldest waiting request that is decided for good, with its reply.
    pub fn next_ack(&mut self) -> Option<(RequestNo, Reply)> {
        let request = self.waiting.pop_due()?;
        Some((request, self.registry.reply(request)?))
    }

    // Owing messages

    fn owe(&mut self, to: NodeId, body: Body, backing: Option<u64>) {
        let message = Message {
            from: self.place.node,
            to,
            body,
        };
        match backing {
            Some(fact) if fact >= self.marked_end => self.outbox.push_held(fact, message),
            _ => self.outbox.push_free(message),
        }
    }

    fn owe_others(&mut self, body: Body, backing: Option<u64>) {
        for to in self.place.others() {
            self.owe(to, body.clone(), backing);
        }
    }

    fn owe_everyone(&mut self, body: Body, backing: Option<u64>) {
        for to in self.place.everyone() {
            self.owe(to, body.clone(), backing);
        }
    }

    /// Asks what the first undecided instance has decided.
    fn question(&self) -> Body {
        Body::Ask {
            instance: self.instances.first_undecided(),
        }
    }

    /// The decision of an instance, if there is one, is owed to a node.
    fn answer(&mut self, instance: u32, to: NodeId) {
        if let Slot::Decided { command, fact } = self.instances.slot(instance) {
            let (command, fact) = (command.clone(), *fact);
            self.owe(to, Body::Decision { instance, command }, Some(fact));
        }
    }

    /// Says again where each open instance stands.
    fn restate_all(&mut self) {
        for at in 0..self.instances.window.len() {
            self.restate(self.instances.window[at]);
        }
    }

    fn restate(&mut self, instance: u32) {
        let Some(open) = self.instances.open(instance) else {
            return;
        };
        let (round, stamp) = (open.round, open.stamp);
        let proposal = open
            .proposal
            .clone()
            .map(|command| (command, open.proposed));
        let (body, fact) = if stamp < round {
            let command = open.estimate.clone();
            (
                Body::Estimate {
                    instance,
                    round,
                    stamp,
                    command,
                },
                open.entered,
            )
        } else {
            (Body::Ack { instance, round }, open.adopted)
        };
        self.owe(self.place.coordinator(round), body, Some(fact));
        if let Some((command, fact)) = proposal {
            self.owe_everyone(
                Body::Proposal {
                    instance,
                    round,
                    command,
                },
                Some(fact),
            );
        }
    }

    // Steps of an instance

    /// Stages a fact and answers its number.
    fn stage(&mut self, fact: Fact) -> u64 {
        let number = self.next_fact;
        self.staged.push_back(fact);
        self.next_fact += 1;
        number
    }

    /// A command goes last into the pool where its request is neither there
    /// nor decided.
    fn add_to_pool(&mut self, command: &SharedCommand) {
        let request = command.request;
        if !self.pool.contains(request) && !self.instances.decided_requests.contains(&request) {
            self.pool.push(command.clone());
        }
    }

    /// The first command of the pool that is no estimate of an open instance.
    fn free_command(&self) -> Option<&SharedCommand> {
        self.pool
            .iter()
            .find(|command| !self.instances.is_estimate(command))
    }

    fn catch_up(&mut self, instance: u32, round: u32, heard: &SharedCommand) {
        if self.instances.round(instance) < round {
            self.enter(instance, round, Some(heard));
        }
    }

    /// An instance enters a round with its estimate, else with a command of
    /// the pool, else with the one heard.
    fn enter(&mut self, instance: u32, round: u32, heard: Option<&SharedCommand>) {
        let (stamp, command) = match self.instances.open(instance) {
            Some(open) => (open.stamp, open.estimate.clone()),
            None => match self.free_command().or(heard) {
                Some(command) => (0, command.clone()),
                None => return,
            },
        };
        self.leave_round(instance);
        let fact = Fact::Enter {
            instance,
            round,
            stamp,
            command: command.clone(),
        };
        let entered = self.stage(fact);
        *self.instances.slot_mut(instance) = Slot::Open(Box::new(OpenInstance {
            round,
            stamp,
            estimate: command.clone(),
            proposal: None,
            entered,
            proposed: 0,
            adopted: 0,
            tally: Tally::default(),
        }));
        let body = Body::Estimate {
            instance,
            round,
            stamp,
            command,
        };
        self.owe(self.place.coordinator(round), body, Some(entered));
    }

    /// A round of another coordinator in which nothing was adopted is left
    /// with a refusal.
    fn leave_round(&mut self, instance: u32) {
        let Some(open) = self.instances.open(instance) else {
            return;
        };
        let round = open.round;
        if open.stamp < round && !self.place.coordinates(round) {
            self.owe(
                self.place.coordinator(round),
                Body::Nack { instance, round },
                None,
            );
        }
    }

    /// A proposal of the present round is adopted once, and acknowledged each
    /// time.
    fn adopt(&mut self, instance: u32, round: u32, command: &SharedCommand, from: NodeId) {
        let number = self.next_fact;
        let Some(open) = self.instances.open_mut(instance) else {
            return;
        };
        if open.round != round {
            return;
        }
        let is_new = open.stamp < round;
        if is_new {
            open.stamp = round;
            open.estimate = command.clone();
            open.adopted = number;
        }
        let adopted = open.adopted;
        if is_new {
            self.stage(Fact::Adopt {
                instance,
                round,
                command: command.clone(),
            });
        }
        self.owe(from, Body::Ack { instance, round }, Some(adopted));
    }

    fn propose(&mut self, instance: u32, command: SharedCommand) {
        let number = self.next_fact;
        let Some(open) = self.instances.open_mut(instance) else {
            return;
        };
        let round = open.round;
        open.proposal = Some(command.clone());
        open.proposed = number;
        self.stage(Fact::Propose {
            instance,
            round,
            command: command.clone(),
        });
        self.owe_everyone(
            Body::Proposal {
                instance,
                round,
                command,
            },
            Some(number),
        );
    }

    fn conclude(&mut self, instance: u32, command: SharedCommand) {
        let number = self.stage(Fact::Decide {
            instance,
            command: command.clone(),
        });
        self.pool.remove(command.request);
        self.instances.decide(instance, command.clone(), number);
        self.owe_others(Body::Decision { instance, command }, Some(number));
    }

    // What is due

    /// Does what is due, until nothing is.
    fn settle(&mut self) {
        while let Some(due) = self.due() {
            match due {
                Due::Begin(instance) => self.enter(instance, 1, None),
                Due::Propose(instance, command) => self.propose(instance, command),
                Due::Decide(instance, command) => self.conclude(instance, command),
                Due::MoveOn(instance) => {
                    self.enter(instance, self.instances.round(instance) + 1, None);
                }
            }
        }
    }

    /// What is due for the lowest open instance to which anything applies.
    fn due(&self) -> Option<Due> {
        let mut may_begin = None;
        self.instances
            .window
            .iter()
            .find_map(|&instance| match self.instances.slot(instance) {
                Slot::Unnamed => {
                    let may = *may_begin.get_or_insert_with(|| self.free_command().is_some());
                    may.then_some(Due::Begin(instance))
                }
                Slot::Open(open) if self.place.coordinates(open.round) => {
                    self.due_of_coordinator(instance, open)
                }
                Slot::Open(open) => self.due_of_participant(instance, open),
                Slot::Decided { .. } => None,
            })
    }

    fn due_of_coordinator(&self, instance: u32, open: &OpenInstance) -> Option<Due> {
        let tally = &open.tally;
        let Some(proposal) = &open.proposal else {
            let is_ready = self.place.is_majority(tally.count());
            let best = tally.best().filter(|_| is_ready)?;
            return Some(Due::Propose(instance, best.clone()));
        };
        if self.place.is_majority(tally.acks.count_ones()) {
            return Some(Due::Decide(instance, proposal.clone()));
        }
        let has_answers = self
            .place
            .is_majority((tally.acks | tally.nacks).count_ones());
        (has_answers && open.round < LAST_ROUND).then_some(Due::MoveOn(instance))
    }

    fn due_of_participant(&self, instance: u32, open: &OpenInstance) -> Option<Due> {
        let coordinator = self.place.coordinator(open.round);
        let is_suspected = self.suspects & (1 << coordinator) != 0;
        (is_suspected && open.round < LAST_ROUND).then_some(Due::MoveOn(instance))
    }
}
