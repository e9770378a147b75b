//! Plays a trace from standard input through segrx's library and prints the report, as
//! `segrx replay` does: `play_trace [--losses decided|passed|slid] < TRACE > REPORT`.
//!
//! A faulty line of the trace is told by its number.

mod play;
mod trace;

use play::Played;
use segrx::LossRule;
use std::error::Error;
use std::io::{self, BufWriter, Read, Write};
use std::process::exit;
use trace::Trace;

fn main() {
    let words: Vec<String> = std::env::args().skip(1).collect();
    match rule_of(&words.iter().map(String::as_str).collect::<Vec<_>>()).map(play) {
        Some(Ok(())) => {}
        Some(Err(error)) => {
            eprintln!("play_trace: {}", error);
            exit(1);
        }
        None => {
            eprintln!("usage: play_trace [--losses decided|passed|slid] < TRACE > REPORT");
            exit(2);
        }
    }
}

fn rule_of(words: &[&str]) -> Option<LossRule> {
    match words {
        [] | ["--losses", "decided"] => Some(LossRule::Decided),
        ["--losses", "passed"] => Some(LossRule::Passed),
        ["--losses", "slid"] => Some(LossRule::PassedOrSlid),
        _ => None,
    }
}

fn play(rule: LossRule) -> Result<(), Box<dyn Error>> {
    let mut text = Vec::new();
    io::stdin().read_to_end(&mut text)?;
    let trace = Trace::read(&text).map_err(|line| format!("line {} is faulty", line))?;
    let played = Played::new(&trace, rule)?;
    let mut to = BufWriter::new(io::stdout().lock());
    played.report(&mut to)?;
    to.flush()?;
    Ok(())
}
