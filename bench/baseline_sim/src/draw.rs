//! Random schedules.

use std::fmt::Write;

use crate::cluster::Cluster;
use crate::schedule::Schedule;

const MULTIPLIER: u64 = 6_364_136_223_846_793_005;

/// The generator PCG-XSH-RR of 64 bits of state and 32 of output.
pub struct Pcg32 {
    state: u64,
    increment: u64,
}

impl Pcg32 {
    /// Of a seed of 64 bits: it is spread over the 128 of state and increment
    /// by the same generator with another increment.
    pub fn of_seed(seed: u64) -> Self {
        let mut spread = Pcg32 {
            state: seed,
            increment: 11_634_580_027_462_260_723,
        };
        let [a, b, c, d] = std::array::from_fn(|_| {
            spread.step();
            u64::from(spread.output())
        });
        let mut pcg = Pcg32 {
            state: a | b << 32,
            increment: (c | d << 32) | 1,
        };
        pcg.state = pcg.state.wrapping_add(pcg.increment);
        pcg.step();
        pcg
    }

    fn step(&mut self) {
        self.state = self
            .state
            .wrapping_mul(MULTIPLIER)
            .wrapping_add(self.increment);
    }

    fn output(&self) -> u32 {
        let folded = ((self.state >> 18) ^ self.state) >> 27;
        (folded as u32).rotate_right((self.state >> 59) as u32)
    }

    pub fn word(&mut self) -> u32 {
        let word = self.output();
        self.step();
        word
    }
}

/// The text of the schedule that a seed draws. The event of the line
/// `starved`, a failing device call, finds no memory while it is drawn.
pub fn draw(seed: u64, steps: u32, nodes: u8, starved: u32) -> String {
    let mut generator = Pcg32::of_seed(seed);
    let mut text = format!("nodes {nodes}\n");
    let mut cluster = Cluster::new(nodes);
    let mut line = 1;
    let mut happen = |cluster: &mut Cluster, event: String| {
        line += 1;
        run_line(cluster, nodes, line, starved == line, &event);
        text.push_str(&event);
    };
    for p in 0..nodes {
        happen(&mut cluster, format!("restart {p}\n"));
        (0..9).for_each(|_| happen(&mut cluster, format!("dev {p}\n")));
    }
    for _ in 0..steps {
        let (a, b) = (generator.word(), generator.word());
        let event = event_of(&cluster, nodes, a, b);
        happen(&mut cluster, event);
    }
    text
}

pub fn run_line(cluster: &mut Cluster, nodes: u8, line: u32, starved: bool, event: &str) {
    let text = format!("nodes {nodes}\n{event}");
    let read = Schedule::begin(text.as_bytes()).and_then(|mut schedule| schedule.next());
    match read {
        Ok(Some((_, event))) => {
            cluster.step(line, event, starved);
        }
        _ => panic!("a line was drawn that is no event: {event}"),
    }
}

/// The line of the event that two words give.
fn event_of(cluster: &Cluster, nodes: u8, a: u32, b: u32) -> String {
    let p = a % u32::from(nodes);
    match a / 256 % 32 {
        0 => {
            let name = b"abcd"[(b / 32 % 4) as usize] as char;
            format!("submit {p} {} {} claim {name}\n", b % 4, b / 4 % 8)
        }
        1..=7 => match cluster.wire() {
            [] => format!("hear {p} 0\n"),
            wire => {
                let number = b as usize % wire.len();
                format!("hear {} {number}\n", wire[number].to)
            }
        },
        8 => format!("suspect {p} {}\n", set_text(b % (1 << nodes), nodes)),
        9 => format!("tick {p}\n"),
        10 => format!("advance {p}\n"),
        11 | 12 => format!("take {p}\n"),
        13..=20 => format!("dev {p}\n"),
        21 | 22 => format!("mark {p}\n"),
        23..=26 => format!("send {p}\n"),
        27 => format!("ack {p}\n"),
        28 => format!("snap {p}\n"),
        29 => format!("fail {p} {:02X}\n", b % 256),
        30 => {
            let cut = b / 256 % 1024;
            format!("crash {p} {cut} {cut} {:02X}\n", b % 256)
        }
        _ => format!("restart {p}\n"),
    }
}

fn set_text(set: u32, nodes: u8) -> String {
    let mut text = String::new();
    for p in (0..nodes).filter(|p| set >> p & 1 == 1) {
        write!(text, "{p}").expect("a text takes what is written");
    }
    if text.is_empty() {
        text.push('-');
    }
    text
}
