//! What events do for which memory is wanting.

use super::{Answer, Doing, Job, Node, Phase};
use crate::consensus::Core;
use crate::disk::Disk;
use crate::journal::FrameJob;
use crate::schedule::Action;
use crate::types::Refusal;

/// What want of memory makes of an event.
enum Want {
    /// Nothing: the event takes no memory.
    Spared,
    /// The event is refused, and nothing changes.
    Refused,
    /// The write that was due fails: the node has failed.
    Failed,
    /// The opening ends: the node is down.
    Ended,
}

impl Node {
    /// What an event answers for which memory is wanting; None where it takes none.
    pub fn starve(&mut self, action: &Action) -> Option<Answer> {
        let want = match &self.doing {
            Doing::Stopped | Doing::Failed => Want::Spared,
            Doing::Opening(phase) => starve_opening(phase, action, &mut self.disk),
            Doing::Serving(serving) => {
                starve_serving(&serving.core, &serving.job, action, &mut self.disk)
            }
        };
        match want {
            Want::Spared => None,
            Want::Refused => Some(Err(Refusal::OutOfMemory)),
            Want::Failed => {
                self.doing = Doing::Failed;
                Some(Err(Refusal::Device))
            }
            Want::Ended => {
                self.doing = Doing::Stopped;
                Some(Err(Refusal::OutOfMemory))
            }
        }
    }
}

/// Of a node that opens, only device calls take memory.
fn starve_opening(phase: &Phase, action: &Action, disk: &mut Disk) -> Want {
    match (phase, action) {
        (Phase::ReadingFirst | Phase::ReadingSecond(_), Action::Device) => Want::Ended,
        (Phase::Formatting(job), Action::Device) if job.is_last() => {
            disk.sync();
            Want::Ended
        }
        (Phase::Formatting(job), Action::Device | Action::Fail(_)) => starve_call(job, disk),
        _ => Want::Spared,
    }
}

/// Of a node that serves, inputs take memory, unless they are refused for what they are,
/// the beginning of a job, the marking of a group, and writes that make their area longer.
fn starve_serving(core: &Core, job: &Job, action: &Action, disk: &mut Disk) -> Want {
    match (action, job) {
        (Action::Submit(command), _) if core.is_full_for(command.request) => Want::Spared,
        (Action::Advance, _) if core.is_in_last_round() => Want::Spared,
        (Action::Submit(_) | Action::Hear(_) | Action::Suspect(_), _) => Want::Refused,
        (Action::Tick | Action::Advance, _) => Want::Refused,
        (Action::Take | Action::Snap, Job::Resting) => Want::Refused,
        (Action::Mark, Job::Flushed) => Want::Refused,
        (Action::Device | Action::Fail(_), Job::Flushing(job) | Job::Switching(job)) => {
            starve_call(job, disk)
        }
        _ => Want::Spared,
    }
}

/// A write that makes its area longer fails, and leaves what there is of its range loose.
fn starve_call(job: &FrameJob, disk: &mut Disk) -> Want {
    if job.starve(disk) {
        Want::Failed
    } else {
        Want::Spared
    }
}
