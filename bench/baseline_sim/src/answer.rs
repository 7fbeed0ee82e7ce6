//! Answers many questions, one after another, so that a script needn't start
//! a program for each.
//!
//! A question is a line, and behind it the bytes that the line counts:
//! `sim BYTES LINES..`, `audit BYTES`, `show BYTES BYTES`, `script NODES
//! BYTES`, `message BYTES`, `areas BYTES` or `draw SEED STEPS NODES LINE`. An
//! answer is the line `STATUS BYTES BYTES`, then standard output and the fault.

use std::io::{self, BufRead, Write};

use crate::draw::draw;
use crate::show::show;
use crate::{areas_of, audit_tape, read_message, read_script, simulate, Ending};

/// Answers each question of the input.
pub fn answer_all(input: &mut impl BufRead, out: &mut impl Write) -> io::Result<()> {
    loop {
        let mut line = String::new();
        if input.read_line(&mut line)? == 0 {
            return Ok(());
        }
        let ending = answer(&line, input)?;
        let fault = ending.fault.as_bytes();
        writeln!(
            out,
            "{} {} {}",
            ending.status,
            ending.out.len(),
            fault.len()
        )?;
        out.write_all(&ending.out)?;
        out.write_all(fault)?;
        out.flush()?;
    }
}

fn answer(line: &str, input: &mut impl BufRead) -> io::Result<Ending> {
    let mut words = line.split_whitespace();
    let verb = words.next().unwrap_or_default();
    let numbers: Vec<u64> = words.filter_map(|word| word.parse().ok()).collect();
    let mut bytes = |count: u64| {
        let mut bytes = vec![0; count as usize];
        input.read_exact(&mut bytes).map(|()| bytes)
    };
    Ok(match (verb, &numbers[..]) {
        ("sim", [count, lines @ ..]) => {
            let starved: Vec<u32> = lines.iter().map(|line| *line as u32).collect();
            simulate(&bytes(*count)?, &starved)
        }
        ("audit", &[count]) => audit_tape(bytes(count)),
        ("show", &[first, second]) => show([&bytes(first)?, &bytes(second)?]).into(),
        ("script", &[nodes, count]) => read_script(nodes as u8, &bytes(count)?),
        ("message", &[count]) => read_message(&bytes(count)?),
        ("areas", &[count]) => {
            let [first, second] = areas_of(&bytes(count)?);
            let fault = format!("{}", first.len());
            Ending {
                status: 0,
                out: [first, second].concat(),
                fault,
            }
        }
        ("draw", &[seed, steps, nodes, line]) => Ending {
            status: 0,
            out: draw(seed, steps as u32, nodes as u8, line as u32).into_bytes(),
            fault: String::new(),
        },
        _ => return Err(io::Error::other("no question")),
    })
}
