//! A listing program, run as a process for each input.

use super::tally::Tally;
use crate::catalogue::catalogue;
use crate::generate::{any_mesh, damage, files};
use crate::listing::{listing, MOST_INPUT};
use crate::random::Random;
use crate::stored::encode;
use std::io::{Result, Write};
use std::process::{Command, Stdio};

/// Runs the program on samples, random meshes and damaged files.
pub fn compare_listing(program: &str, scale: u64) -> Tally {
    let mut tally = Tally::default();
    inputs(scale).iter().for_each(|input| compare(&mut tally, program, input));
    tally
}

fn compare(tally: &mut Tally, program: &str, input: &[u8]) {
    let wanted = listing(input);
    let problem = match run(program, input) {
        Ok(text) if text == wanted.as_bytes() => None,
        Ok(text) => Some(format!("prints {:?}, not {wanted:?}", String::from_utf8_lossy(&text))),
        Err(error) => Some(format!("cannot be run: {error}")),
    };
    let refusal = wanted.strip_prefix("refused ").map_or(0, |number| number.trim_end().parse().expect("a number"));
    tally.judge(refusal, problem, || format!("listing of {} bytes", input.len()));
}

/// The program may stop reading once it has seen too much, so a failed write is no fault.
fn run(program: &str, input: &[u8]) -> Result<Vec<u8>> {
    let mut child = Command::new(program).stdin(Stdio::piped()).stdout(Stdio::piped()).spawn()?;
    let _ = child.stdin.take().expect("standard input is piped").write_all(input);
    Ok(child.wait_with_output()?.stdout)
}

fn with_rounds(rounds: u8, stored: &[u8]) -> Vec<u8> {
    [&[rounds], stored].concat()
}

fn inputs(scale: u64) -> Vec<Vec<u8>> {
    let mut all = vec![vec![], vec![1]];
    for sample in catalogue() {
        all.extend([0, 1, 2, 3, 8, 9, 255].map(|rounds| with_rounds(rounds, &encode(&sample.mesh))));
    }
    for length in [2, 13, 14, MOST_INPUT - 1, MOST_INPUT, MOST_INPUT + 1, 4 * MOST_INPUT] {
        all.push(vec![0x10; length]);
    }
    for case in 0..300 * scale {
        let mut random = Random::new(11_000_000 + case);
        let mut mesh = any_mesh(&mut random);
        let rounds = random.pick(&[0, 1, 1, 2, 3, 9, 100]);
        match random.below(4) {
            0 => all.push(with_rounds(rounds, &files::damaged_file(&mesh, &mut random))),
            1 => {
                damage::damage(&mut mesh, [4, 5, 6, 7, 8][random.below(5)], &mut random);
                all.push(with_rounds(rounds, &encode(&mesh)));
            }
            _ => all.push(with_rounds(rounds, &encode(&mesh))),
        }
    }
    all
}
