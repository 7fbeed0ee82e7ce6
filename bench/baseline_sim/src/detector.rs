//! The heartbeat detector.

use crate::types::{NodeId, NodeSet, Place};

const FIRST_TIME_OUT: u32 = 4;

/// What is known of a node: ticks since its last beat, and how many are borne.
#[derive(Clone, Copy)]
struct Watch {
    ticks: u32,
    time_out: u32,
}

impl Watch {
    fn is_late(self) -> bool {
        self.ticks > self.time_out
    }
}

/// Suspects nodes whose beats are late.
pub struct Detector {
    watches: Vec<Watch>,
}

impl Detector {
    pub fn new(place: Place) -> Self {
        let watch = Watch {
            ticks: 0,
            time_out: FIRST_TIME_OUT,
        };
        Detector {
            watches: vec![watch; usize::from(place.nodes)],
        }
    }

    pub fn tick(&mut self) {
        for watch in &mut self.watches {
            watch.ticks = watch.ticks.saturating_add(1);
        }
    }

    /// A beat ends a suspicion, and the node is borne one tick more from then on.
    pub fn beat(&mut self, node: NodeId) {
        let watch = &mut self.watches[usize::from(node)];
        if watch.is_late() {
            watch.time_out = watch.time_out.saturating_add(1);
        }
        watch.ticks = 0;
    }

    /// The other nodes that are late.
    pub fn suspects(&self, place: Place) -> NodeSet {
        let late = place
            .others()
            .filter(|&q| self.watches[usize::from(q)].is_late());
        late.fold(0, |set, q| set | 1 << q)
    }
}
