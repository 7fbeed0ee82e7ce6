//! A node with its disk.

mod starve;

use crate::codec::{put_group, put_snapshot};
use crate::consensus::Core;
use crate::disk::Disk;
use crate::journal::{frame_body, read_active, Content, FrameJob, Journal};
use crate::registry::Registry;
use crate::types::{Fact, Message, Place, Refusal, Reply, RequestNo, AREA_LIMIT};

/// How far an opening has come.
enum Phase {
    Settling,
    ReadingFirst,
    ReadingSecond(Vec<u8>),
    Formatting(FrameJob),
}

/// What a serving node does with its disk.
enum Job {
    Resting,
    Flushing(FrameJob),
    Flushed,
    Switching(FrameJob),
}

struct Serving {
    place: Place,
    core: Core,
    journal: Journal,
    job: Job,
}

enum Doing {
    Stopped,
    Failed,
    Opening(Phase),
    Serving(Box<Serving>),
}

/// What an event answers that isn't refused.
pub enum Outcome {
    Quiet,
    Left(Message),
    Replied(RequestNo, Reply),
    /// An opening has ended, with so many facts and decided instances.
    Opened {
        facts: u64,
        decided: u32,
    },
}

/// What a node waits for.
#[derive(Clone, Copy, PartialEq, Eq)]
pub enum Stance {
    /// A restart: it is down.
    Down,
    /// A restart: a device call of it has failed.
    Failed,
    /// The next device call of its opening.
    Opening,
    /// It is up, and no job runs.
    Resting,
    /// It is up, and the next device call of a flush or a switch is due.
    Calling,
    /// It is up, and a synced group waits for its mark.
    Flushed,
}

pub type Answer = Result<Outcome, Refusal>;

pub struct Node {
    place: Place,
    doing: Doing,
    disk: Disk,
}

impl Node {
    /// A node that is down, over an empty disk.
    pub fn new(place: Place) -> Self {
        Node {
            place,
            doing: Doing::Stopped,
            disk: Disk::default(),
        }
    }

    /// What it waits for.
    pub fn stance(&self) -> Stance {
        match &self.doing {
            Doing::Stopped => Stance::Down,
            Doing::Failed => Stance::Failed,
            Doing::Opening(_) => Stance::Opening,
            Doing::Serving(serving) => match &serving.job {
                Job::Resting => Stance::Resting,
                Job::Flushing(_) | Job::Switching(_) => Stance::Calling,
                Job::Flushed => Stance::Flushed,
            },
        }
    }

    /// The facts of its group that is synced and not marked yet.
    pub fn synced(&self) -> &[Fact] {
        match &self.doing {
            Doing::Serving(serving) if matches!(serving.job, Job::Flushed) => {
                serving.core.running()
            }
            _ => &[],
        }
    }

    /// The registry of a node that serves.
    pub fn registry(&self) -> Option<&Registry> {
        match &self.doing {
            Doing::Serving(serving) => Some(serving.core.registry()),
            _ => None,
        }
    }

    /// The bytes of both areas of its disk.
    pub fn areas(&self) -> [Vec<u8>; 2] {
        [0, 1].map(|area| self.disk.read(area).to_vec())
    }

    fn serving(&mut self) -> Result<&mut Serving, Refusal> {
        match &mut self.doing {
            Doing::Stopped | Doing::Opening(_) => Err(Refusal::Down),
            Doing::Failed => Err(Refusal::Failed),
            Doing::Serving(serving) => Ok(serving),
        }
    }

    /// The consensus of a node that serves.
    pub fn core(&mut self) -> Result<&mut Core, Refusal> {
        self.serving().map(|serving| &mut serving.core)
    }

    /// Begins to flush the staged facts.
    pub fn take(&mut self) -> Answer {
        self.serving()?.take()
    }

    /// Begins a switch to a snapshot in the other area.
    pub fn snap(&mut self) -> Answer {
        match &mut self.doing {
            Doing::Serving(serving) => serving.snap(&self.disk),
            Doing::Failed => Err(Refusal::Failed),
            Doing::Stopped | Doing::Opening(_) => Err(Refusal::Down),
        }
    }

    /// Marks the synced group.
    pub fn mark(&mut self) -> Answer {
        let serving = self.serving()?;
        if matches!(serving.job, Job::Flushed) {
            serving.core.mark();
            serving.job = Job::Resting;
        }
        Ok(Outcome::Quiet)
    }

    /// The oldest message that may leave goes.
    pub fn send(&mut self) -> Answer {
        Ok(self
            .core()?
            .next_message()
            .map_or(Outcome::Quiet, Outcome::Left))
    }

    /// The oldest decided request that waits is acknowledged.
    pub fn acknowledge(&mut self) -> Answer {
        let ack = self.core()?.next_ack();
        Ok(ack.map_or(Outcome::Quiet, |(request, reply)| {
            Outcome::Replied(request, reply)
        }))
    }

    /// Begins an opening.
    pub fn restart(&mut self) -> Answer {
        match self.doing {
            Doing::Stopped | Doing::Failed => {
                self.doing = Doing::Opening(Phase::Settling);
                Ok(Outcome::Quiet)
            }
            Doing::Opening(_) | Doing::Serving(_) => Err(Refusal::Busy),
        }
    }

    /// The node goes down, and its disk keeps what the cuts and the fill say.
    pub fn crash(&mut self, cuts: [usize; 2], fill: &[u8]) {
        self.doing = Doing::Stopped;
        self.disk.crash(cuts, fill);
    }

    /// The node as a crash would leave it, over a copy of its disk.
    pub fn after_crash(&self, cuts: [usize; 2], fill: &[u8]) -> Node {
        let mut disk = self.disk.clone();
        disk.crash(cuts, fill);
        Node {
            place: self.place,
            doing: Doing::Stopped,
            disk,
        }
    }

    /// Makes the next device call.
    pub fn device(&mut self) -> Answer {
        match &mut self.doing {
            Doing::Stopped => Err(Refusal::Down),
            Doing::Failed => Err(Refusal::Failed),
            Doing::Opening(_) => self.open_on(),
            Doing::Serving(serving) => {
                serving.device(&mut self.disk);
                Ok(Outcome::Quiet)
            }
        }
    }

    /// The next device call fails.
    pub fn fail(&mut self, fill: &[u8]) -> Answer {
        match &self.doing {
            Doing::Stopped => return Err(Refusal::Down),
            Doing::Failed => return Err(Refusal::Failed),
            Doing::Opening(Phase::Formatting(job)) => job.fail(&mut self.disk, fill),
            Doing::Opening(_) => {}
            Doing::Serving(serving) => match &serving.job {
                Job::Resting | Job::Flushed => return Ok(Outcome::Quiet),
                Job::Flushing(job) | Job::Switching(job) => job.fail(&mut self.disk, fill),
            },
        }
        self.doing = Doing::Failed;
        Err(Refusal::Device)
    }

    /// The next device call of an opening.
    fn open_on(&mut self) -> Answer {
        let Doing::Opening(phase) = &mut self.doing else {
            return Ok(Outcome::Quiet);
        };
        match phase {
            Phase::Settling => {
                self.disk.sync();
                *phase = Phase::ReadingFirst;
            }
            Phase::ReadingFirst => *phase = Phase::ReadingSecond(self.disk.read(0).to_vec()),
            Phase::ReadingSecond(first) => {
                match read_active(self.place, [first, self.disk.read(1)]) {
                    Ok(Some(content)) => return Ok(self.serve(content)),
                    Ok(None) => {
                        *phase = Phase::Formatting(FrameJob::format(&self.disk, self.place))
                    }
                    Err(_) => {
                        self.doing = Doing::Stopped;
                        return Err(Refusal::Damaged);
                    }
                }
            }
            Phase::Formatting(job) => {
                if job.step(&mut self.disk) {
                    let content = Content::formatted(self.place, job.next_gate());
                    return Ok(self.serve(content));
                }
            }
        }
        Ok(Outcome::Quiet)
    }

    /// The opening ends with this content.
    fn serve(&mut self, content: Content) -> Outcome {
        let (facts, journal) = (content.next, content.journal);
        let core = Core::start(self.place, content);
        let decided = core.prefix();
        let serving = Serving {
            place: self.place,
            core,
            journal,
            job: Job::Resting,
        };
        self.doing = Doing::Serving(Box::new(serving));
        Outcome::Opened { facts, decided }
    }
}

impl Serving {
    fn take(&mut self) -> Answer {
        if !matches!(self.job, Job::Resting) {
            return Err(Refusal::Busy);
        }
        let Some((first, facts)) = self.core.next_group() else {
            return Ok(Outcome::Quiet);
        };
        let body = frame_body(|out| put_group(out, first, facts));
        if self.journal.gate + 1 + body.len() >= AREA_LIMIT {
            return Err(Refusal::TooLarge);
        }
        self.core.take_group();
        self.job = Job::Flushing(FrameJob::append(self.journal.area, self.journal.gate, body));
        Ok(Outcome::Quiet)
    }

    fn snap(&mut self, disk: &Disk) -> Answer {
        if !matches!(self.job, Job::Resting) {
            return Err(Refusal::Busy);
        }
        let epoch = self.journal.epoch.checked_add(1).ok_or(Refusal::TooLarge)?;
        let (promise, next) = self.core.marked();
        let body = frame_body(|out| put_snapshot(out, self.place, epoch, next, promise));
        if 1 + body.len() >= AREA_LIMIT {
            return Err(Refusal::TooLarge);
        }
        self.job = Job::Switching(FrameJob::rewrite(disk, 1 - self.journal.area, body));
        Ok(Outcome::Quiet)
    }

    /// The next device call of the job, if one is due.
    fn device(&mut self, disk: &mut Disk) {
        match &mut self.job {
            Job::Resting | Job::Flushed => {}
            Job::Flushing(job) => {
                if job.step(disk) {
                    self.journal.gate = job.next_gate();
                    self.job = Job::Flushed;
                }
            }
            Job::Switching(job) => {
                if job.step(disk) {
                    self.journal.area = job.area();
                    self.journal.gate = job.next_gate();
                    self.journal.epoch += 1;
                    self.job = Job::Resting;
                }
            }
        }
    }
}
