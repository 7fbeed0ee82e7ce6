//! `baseline_run --nodes N --dir DIR --script FILE` runs N nodes in threads over files, node P over those in DIR/P,
//! has a client of each ask what a script asks of its node, and prints the answers: what `rr run` does, with the same
//! bytes in the files. What a node knows and does is that of `bench/baseline_sim`.

#[path = "../../baseline_sim/src/codec.rs"]
#[allow(dead_code)]
mod codec;
#[path = "../../baseline_sim/src/consensus.rs"]
#[allow(dead_code)]
mod consensus;
#[path = "../../baseline_sim/src/detector.rs"]
mod detector;
#[path = "../../baseline_sim/src/disk.rs"]
#[allow(dead_code)]
mod disk;
mod files;
#[path = "../../baseline_sim/src/journal.rs"]
#[allow(dead_code)]
mod journal;
mod node;
#[path = "../../baseline_sim/src/promise.rs"]
#[allow(dead_code)]
mod promise;
#[path = "../../baseline_sim/src/queues.rs"]
mod queues;
#[path = "../../baseline_sim/src/registry.rs"]
#[allow(dead_code)]
mod registry;
mod run;
#[path = "../../baseline_sim/src/schedule.rs"]
#[allow(dead_code)]
mod schedule;
mod script;
#[path = "../../baseline_sim/src/types.rs"]
#[allow(dead_code)]
mod types;

use std::io::{self, Write};
use std::path::Path;
use std::process::ExitCode;
use std::{env, fs};

use files::{open_folders, Failure};

fn main() -> ExitCode {
    let words: Vec<String> = env::args().skip(1).collect();
    let words: Vec<&str> = words.iter().map(String::as_str).collect();
    let ["--nodes", nodes @ ("1" | "2" | "3" | "4" | "5" | "6" | "7"), "--dir", folder, "--script", file] =
        words[..]
    else {
        eprintln!("words: --nodes NODES --dir DIR --script FILE");
        return ExitCode::from(2);
    };
    match run_file(nodes.as_bytes()[0] - b'0', Path::new(folder), file) {
        Ok(()) => ExitCode::SUCCESS,
        Err(failure) => {
            eprintln!("baseline_run: {failure}");
            ExitCode::from(failure.status())
        }
    }
}

/// Runs the script in a file, and prints the answers.
fn run_file(nodes: u8, folder: &Path, file: &str) -> Result<(), Failure> {
    let text = fs::read(file)?;
    let lines = script::read(&text, nodes)?;
    let stores = open_folders(nodes, folder)?;
    let answers = run::run(stores, &lines)?;
    let mut out = Vec::new();
    for answer in &answers {
        writeln!(out, "{answer}")?;
    }
    io::stdout().lock().write_all(&out)?;
    Ok(())
}
