//! Where each instance stands by a node's facts.

use crate::types::{Fact, Place, SharedCommand};

/// Where an instance stands that a fact has named.
#[derive(Clone, Debug)]
pub enum Standing {
    Decided(SharedCommand),
    Open(OpenStanding),
}

/// An undecided instance: its round, the estimate with the round in which it
/// was adopted, and the node's own proposal of the round.
#[derive(Clone, Debug)]
pub struct OpenStanding {
    pub round: u32,
    pub stamp: u32,
    pub estimate: SharedCommand,
    pub proposal: Option<SharedCommand>,
}

/// The standings of all instances, by their numbers.
#[derive(Default, Debug)]
pub struct Promise {
    standings: Vec<Option<Standing>>,
    named: u32,
}

impl Promise {
    pub fn at(&self, instance: u32) -> Option<&Standing> {
        self.standings.get(instance as usize)?.as_ref()
    }

    /// How many instances have a standing.
    pub fn named(&self) -> u32 {
        self.named
    }

    /// One more than the greatest instance with a standing.
    pub fn end(&self) -> usize {
        self.standings.len()
    }

    /// The instances with a standing, ascending.
    pub fn entries(&self) -> impl Iterator<Item = (u32, &Standing)> {
        let numbered = (0..).zip(&self.standings);
        numbered.filter_map(|(instance, standing)| Some((instance, standing.as_ref()?)))
    }

    /// How many instances from 0 on have decided, without a gap.
    pub fn decided_prefix(&self) -> usize {
        let decided = |standing: &&Option<Standing>| matches!(standing, Some(Standing::Decided(_)));
        self.standings.iter().take_while(decided).count()
    }

    pub fn set(&mut self, instance: u32, standing: Standing) {
        let place = instance as usize;
        if place >= self.standings.len() {
            self.standings.resize(place + 1, None);
        }
        if self.standings[place].replace(standing).is_none() {
            self.named += 1;
        }
    }

    fn open_mut(&mut self, instance: u32) -> Option<&mut OpenStanding> {
        match self.standings.get_mut(instance as usize)? {
            Some(Standing::Open(open)) => Some(open),
            _ => None,
        }
    }

    /// Takes one more fact on.
    pub fn take_on(&mut self, fact: Fact) {
        match fact {
            Fact::Enter {
                instance,
                round,
                stamp,
                command,
            } => {
                let open = OpenStanding {
                    round,
                    stamp,
                    estimate: command,
                    proposal: None,
                };
                self.set(instance, Standing::Open(open));
            }
            Fact::Propose {
                instance, command, ..
            } => {
                if let Some(open) = self.open_mut(instance) {
                    open.proposal = Some(command);
                }
            }
            Fact::Adopt {
                instance,
                round,
                command,
            } => {
                if let Some(open) = self.open_mut(instance) {
                    open.stamp = round;
                    open.estimate = command;
                }
            }
            Fact::Decide { instance, command } => self.set(instance, Standing::Decided(command)),
        }
    }

    /// Whether a fact may follow the facts before it.
    pub fn fits(&self, place: Place, fact: &Fact) -> bool {
        match fact {
            Fact::Enter {
                instance,
                round,
                stamp,
                command,
            } => match self.at(*instance) {
                None => *stamp == 0,
                Some(Standing::Decided(_)) => false,
                Some(Standing::Open(open)) => {
                    open.round < *round && open.stamp == *stamp && open.estimate == *command
                }
            },
            Fact::Propose {
                instance, round, ..
            } => self.is_in(*instance, *round, |open| {
                place.coordinates(*round) && open.proposal.is_none()
            }),
            Fact::Adopt {
                instance, round, ..
            } => self.is_in(*instance, *round, |open| open.stamp < *round),
            Fact::Decide { instance, .. } => {
                !matches!(self.at(*instance), Some(Standing::Decided(_)))
            }
        }
    }

    fn is_in(&self, instance: u32, round: u32, test: impl Fn(&OpenStanding) -> bool) -> bool {
        match self.at(instance) {
            Some(Standing::Open(open)) => open.round == round && test(open),
            _ => false,
        }
    }
}
