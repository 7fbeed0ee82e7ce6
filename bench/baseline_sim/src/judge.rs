//! Questions on mutants, and the comparison of another program's answers with
//! our own.

use std::collections::BTreeMap;
use std::fmt::Write as _;
use std::io::{self, BufRead, Write};

use crate::journal::Damage;
use crate::mutants::{mutant, Mutant};
use crate::show::show;
use crate::stock::Stock;
use crate::{audit_tape, read_message, read_script, simulate, Ending};

const MOST_TOLD: usize = 20;

/// Prints a question on each of these mutants.
pub fn ask(stock: &Stock, seed: u64, count: u64, out: &mut impl Write) -> io::Result<()> {
    for seed in seed..seed + count {
        let mutant = mutant(stock, seed);
        match &mutant {
            Mutant::Schedule(text) => writeln!(out, "sim {}", text.len())?,
            Mutant::Tape(text) => writeln!(out, "audit {}", text.len())?,
            Mutant::Script(nodes, text) => writeln!(out, "script {nodes} {}", text.len())?,
            Mutant::Message(bytes) => writeln!(out, "message {}", bytes.len())?,
            Mutant::Areas([first, second]) => {
                writeln!(out, "show {} {}", first.len(), second.len())?
            }
        }
        for bytes in parts(&mutant) {
            out.write_all(bytes)?;
        }
    }
    out.flush()
}

fn parts(mutant: &Mutant) -> Vec<&[u8]> {
    match mutant {
        Mutant::Schedule(bytes)
        | Mutant::Tape(bytes)
        | Mutant::Script(_, bytes)
        | Mutant::Message(bytes) => vec![bytes],
        Mutant::Areas([first, second]) => vec![first, second],
    }
}

/// Reads an answer to each of these mutants, and tells how many are our own,
/// by their kind and status. The last line is `N passed, M failed`.
pub fn judge(
    stock: &Stock,
    seed: u64,
    count: u64,
    input: &mut impl BufRead,
) -> io::Result<Vec<u8>> {
    let mut text = String::new();
    let mut counts = BTreeMap::new();
    let mut failed = 0;
    for seed in seed..seed + count {
        let mutant = mutant(stock, seed);
        let (kind, wanted) = ending_of(&mutant);
        let got = read_answer(input)?;
        if is_same(&got, &wanted) {
            *counts.entry((kind, wanted.status)).or_insert(0u64) += 1;
        } else {
            failed += 1;
            if failed <= MOST_TOLD {
                let (out, fault) = (String::from_utf8_lossy(&got.out), &got.fault);
                writeln!(
                    text,
                    "FAILED seed {seed}, {kind}: status {}, {out:?}, {fault:?}; wanted {}, {:?}",
                    got.status, wanted.status, wanted.fault
                )
                .map_err(io::Error::other)?;
            }
        }
    }
    for ((kind, status), count) in &counts {
        writeln!(text, "{kind} status {status}: {count}").map_err(io::Error::other)?;
    }
    let passed: u64 = counts.values().sum();
    writeln!(text, "{passed} passed, {failed} failed").map_err(io::Error::other)?;
    Ok(text.into_bytes())
}

/// Our own answer, and what kind of mutant it is.
fn ending_of(mutant: &Mutant) -> (&'static str, Ending) {
    match mutant {
        Mutant::Schedule(text) => ("schedules", simulate(text, &[])),
        Mutant::Tape(text) => ("tapes", audit_tape(Ok(text.clone()))),
        Mutant::Script(nodes, text) => ("scripts", read_script(*nodes, text)),
        Mutant::Message(bytes) => ("messages", read_message(bytes)),
        Mutant::Areas([first, second]) => {
            let shown: Result<String, Damage> = show([first, second]);
            ("areas", shown.into())
        }
    }
}

/// Whether two endings agree: the fault by its first line.
fn is_same(got: &Ending, wanted: &Ending) -> bool {
    let line = got.fault.lines().next().unwrap_or_default();
    let fault = line.strip_prefix("rr: ").unwrap_or(line);
    got.status == wanted.status && got.out == wanted.out && fault == wanted.fault
}

fn read_answer(input: &mut impl BufRead) -> io::Result<Ending> {
    let mut line = String::new();
    input.read_line(&mut line)?;
    let numbers: Vec<usize> = line
        .split_whitespace()
        .filter_map(|word| word.parse().ok())
        .collect();
    let &[status, out, fault] = &numbers[..] else {
        return Err(io::Error::other(format!("no answer: {line:?}")));
    };
    let mut bytes = |count: usize| {
        let mut bytes = vec![0; count];
        input.read_exact(&mut bytes).map(|()| bytes)
    };
    Ok(Ending {
        status: status as u8,
        out: bytes(out)?,
        fault: String::from_utf8_lossy(&bytes(fault)?).into_owned(),
    })
}
