//! `baseline_sim sim [--starve LINE] < SCHEDULE` runs a replicated name
//! registry event by event, and prints what its nodes told; the event of the
//! line LINE finds no memory; `sim --long` takes more events than a schedule
//! may have. `baseline_sim audit [FILE]` tells whether a tape is a run, as `rr
//! audit` does. `baseline_sim show DIR` tells what the areas of a node's
//! disk hold, the files `a0` and `a1`. `baseline_sim areas DIR <
//! SCHEDULE` writes those of node 0 behind a schedule. `baseline_sim draw SEED
//! STEPS NODES` prints a random schedule. `baseline_sim sweep SEED < SCHEDULE`
//! tells what a node restarts with after a crash behind each device call.
//! `baseline_sim answer` does all of these but sweeps for the questions on its
//! input. `baseline_sim mutate FOLDER SEED COUNT` prints questions on texts and
//! bytes that seeds alter, for `hostile/programs/many_answers`, and `baseline_sim judge
//! FOLDER SEED COUNT` compares the answers with its own.

mod answer;
mod audit;
mod cluster;
mod codec;
mod consensus;
mod detector;
mod disk;
mod draw;
mod journal;
mod judge;
mod lively;
mod messages;
mod mutants;
mod node;
mod promise;
mod queues;
mod registry;
mod report;
mod schedule;
mod script;
mod show;
mod stock;
mod sweep;
mod tape;
mod types;

use std::io::{self, Read, Write};
use std::path::Path;
use std::process::ExitCode;
use std::{env, fs};

use audit::Verdict;
use cluster::Cluster;
use journal::Damage;
use schedule::{Fault, Schedule};
use stock::Stock;

/// How a run ends: its status, what it prints, and its fault where there is one.
struct Ending {
    status: u8,
    out: Vec<u8>,
    fault: String,
}

impl From<Result<String, Damage>> for Ending {
    fn from(shown: Result<String, Damage>) -> Self {
        match shown {
            Ok(text) => printed(text.into_bytes()),
            Err(damage) => failed(4, format!("3 Damaged {} {}", damage.area, damage.offset)),
        }
    }
}

fn printed(out: Vec<u8>) -> Ending {
    let fault = String::new();
    Ending {
        status: 0,
        out,
        fault,
    }
}

fn failed(status: u8, fault: String) -> Ending {
    let out = Vec::new();
    Ending { status, out, fault }
}

fn main() -> ExitCode {
    let words: Vec<String> = env::args().skip(1).collect();
    let words: Vec<&str> = words.iter().map(String::as_str).collect();
    // An audit says the same words as the program that it is compared with.
    let speaker = match words.first() {
        Some(&"audit") => "rr",
        _ => "baseline_sim",
    };
    match run(&words) {
        Ok(ending) => {
            if !ending.fault.is_empty() {
                eprintln!("{speaker}: {}", ending.fault);
            }
            ExitCode::from(ending.status)
        }
        Err(error) => {
            eprintln!("baseline_sim: {error}");
            ExitCode::from(5)
        }
    }
}

/// Does what the words say, and prints what there is to print.
fn run(words: &[&str]) -> io::Result<Ending> {
    let ending = match words {
        ["sim"] => simulate(&read_input()?, &[]),
        ["sim", "--long"] => simulate_long(&read_input()?),
        ["sim", "--starve", line] => simulate(&read_input()?, &[number(line)? as u32]),
        ["audit"] | ["audit", "-"] => audit_tape(read_input()),
        ["audit", file] => audit_tape(fs::read(file)),
        ["show", folder] => {
            let read = |name: &str| fs::read(Path::new(folder).join(name));
            show::show([&read("a0")?, &read("a1")?]).into()
        }
        ["areas", folder] => {
            let [first, second] = areas_of(&read_input()?);
            fs::write(Path::new(folder).join("a0"), first)?;
            fs::write(Path::new(folder).join("a1"), second)?;
            printed(Vec::new())
        }
        ["draw", seed, steps, nodes] => {
            let (steps, nodes) = (number(steps)? as u32, number(nodes)? as u8);
            printed(draw::draw(number(seed)?, steps, nodes, 0).into_bytes())
        }
        ["lively", seed, steps, nodes, faults] => {
            let (steps, nodes) = (number(steps)? as u32, number(nodes)? as u8);
            let faults = number(faults)? as u32;
            printed(lively::draw(number(seed)?, steps, nodes, faults).into_bytes())
        }
        ["mutate", folder, seed, count] => {
            let stock = Stock::of_folder(Path::new(folder))?;
            let out = &mut io::stdout().lock();
            judge::ask(&stock, number(seed)?, number(count)?, out)?;
            printed(Vec::new())
        }
        ["judge", folder, seed, count] => {
            let stock = Stock::of_folder(Path::new(folder))?;
            let input = &mut io::stdin().lock();
            printed(judge::judge(&stock, number(seed)?, number(count)?, input)?)
        }
        ["sweep", seed] => {
            let text = read_input()?;
            match sweep::sweep(&text, number(seed)?, &mut io::stdout().lock())? {
                Ok(()) => printed(Vec::new()),
                Err(fault) => failed(3, fault.to_string()),
            }
        }
        ["answer"] => {
            answer::answer_all(&mut io::stdin().lock(), &mut io::stdout().lock())?;
            printed(Vec::new())
        }
        _ => failed(
            2,
            "words: sim [--starve LINE | --long], audit [FILE], show DIR, areas DIR, draw SEED STEPS NODES, lively SEED STEPS NODES FAULTS, sweep SEED, answer, mutate, judge"
                .into(),
        ),
    };
    let mut out = io::stdout().lock();
    out.write_all(&ending.out).and_then(|()| out.flush())?;
    Ok(ending)
}

fn number(word: &str) -> io::Result<u64> {
    word.parse().map_err(io::Error::other)
}

fn read_input() -> io::Result<Vec<u8>> {
    let mut text = Vec::new();
    io::stdin().lock().read_to_end(&mut text)?;
    Ok(text)
}

/// The cluster behind a schedule, and whether it made a difference that the
/// events of the lines `starved` found no memory.
fn run_schedule(mut schedule: Schedule, starved: &[u32]) -> Result<(Cluster, bool), Fault> {
    let mut cluster = Cluster::new(schedule.nodes);
    let mut differs = false;
    while let Some((line, event)) = schedule.next()? {
        differs |= cluster.step(line, event, starved.contains(&line));
    }
    Ok((cluster, differs))
}

/// The report of a schedule in which the events of these lines find no memory.
fn simulate(text: &[u8], starved: &[u32]) -> Ending {
    match Schedule::begin(text).and_then(|schedule| run_schedule(schedule, starved)) {
        Ok((cluster, differs)) => {
            let mut ending = printed(cluster.finish());
            if !starved.is_empty() && !differs {
                ending.fault = format!("no event of {starved:?} takes memory");
            }
            ending
        }
        Err(fault) => failed(3, fault.to_string()),
    }
}

/// The report of a schedule of any length.
fn simulate_long(text: &[u8]) -> Ending {
    let schedule = Schedule::begin(text).map(Schedule::of_any_length);
    match schedule.and_then(|schedule| run_schedule(schedule, &[])) {
        Ok((cluster, _)) => printed(cluster.finish()),
        Err(fault) => failed(3, fault.to_string()),
    }
}

/// What an audit says of a tape; one that can't be read has no verdict.
fn audit_tape(text: io::Result<Vec<u8>>) -> Ending {
    let Ok(text) = text else {
        return failed(5, "2 Device".into());
    };
    match audit::audit(&text) {
        Ok(Verdict::Yes(count)) => printed(format!("audit yes {count}\n").into_bytes()),
        Ok(Verdict::No(number)) => failed(7, format!("17 AuditNo {number}")),
        Err(fault) => failed(3, fault.to_string()),
    }
}

/// What is read of a script among so many nodes.
fn read_script(nodes: u8, text: &[u8]) -> Ending {
    match script::count_lines(nodes, text) {
        Ok(count) => printed(format!("{count} lines\n").into_bytes()),
        Err(fault) => failed(3, fault.to_string()),
    }
}

/// What is read of a message; status 1 where it is written as other bytes, as
/// one of version 1 is.
fn read_message(bytes: &[u8]) -> Ending {
    match messages::read(bytes) {
        Ok((line, is_written_so)) => Ending {
            status: u8::from(!is_written_so),
            ..printed(line)
        },
        Err(place) => failed(5, format!("11 Malformed {place}")),
    }
}

/// The areas of node 0 behind a schedule; empty ones behind other bytes.
fn areas_of(text: &[u8]) -> [Vec<u8>; 2] {
    let empty = |_| [Vec::new(), Vec::new()];
    Schedule::begin(text)
        .and_then(|schedule| run_schedule(schedule, &[]))
        .map_or_else(empty, |(cluster, _)| cluster.areas())
}
