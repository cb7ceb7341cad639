//! The given Rust beside our program; NOTES.md says how the comparison works.
extern crate alloc;

mod ack;
mod calls;
mod common;
mod host;
mod hostile;
mod joined;
mod lamps;
mod met;
mod model;
mod read;
mod receive;
mod samples;
mod send;
mod serial;
mod slips;
mod smooth;
mod stand_in;
mod step;
mod timer;
mod vectors;
mod write;
// The given text looks for these at the root of its crate.
use stand_in::{crypto, destination, error, primitives, runtime, sam};

// The given text logs to nothing here, and only a part of it is asked for.
#[allow(dead_code, unused_variables)]
#[path = "../../target/oracle/active.rs"]
mod active;
#[path = "../../target/oracle/packet.rs"]
mod packet;

use common::{Answers, Case, Tally};
use std::{
    io::{stdin, stdout, BufWriter, Read, Write},
    process::ExitCode,
};

fn main() -> ExitCode {
    let words: Vec<String> = std::env::args().skip(1).collect();
    let words: Vec<&str> = words.iter().map(String::as_str).collect();
    let passed = match words[..] {
        ["slips", "gen"] => stdout().write_all(&slips::script()).is_ok(),
        ["slips", "check"] => slips::check(),
        ["vectors", "gen"] => stdout().write_all(&vectors::script()).is_ok(),
        ["vectors", "check"] => vectors::check(),
        ["lamps"] => {
            lamps::show();
            true
        }
        ["model", "answer"] => answer_script().is_ok(),
        ["joined", seed, moves] => {
            let (Ok(seed), Ok(moves)) = (seed.parse(), moves.parse()) else { return usage() };
            joined::simulate(seed, moves)
        }
        ["serial", "tell"] => tell_line().is_ok(),
        ["smooth", "calls", engine, count] => {
            let Ok(count) = count.parse() else { return usage() };
            stdout().write_all(&smooth::calls(engine, count)).is_ok()
        }
        [topic, action @ ("gen" | "check"), seed, count] => {
            let (Ok(seed), Ok(count)) = (seed.parse(), count.parse()) else { return usage() };
            match topic {
                "read" => run::<read::Case>(topic, action, seed, count),
                "write" => run::<write::Case>(topic, action, seed, count),
                "receive" => run::<receive::Sequence>(topic, action, seed, count),
                "timer" => run::<timer::Case>(topic, action, seed, count),
                "ack" => run::<ack::Acks>(topic, action, seed, count),
                "sender" => run::<send::Run>(topic, action, seed, count),
                "serial" => run::<serial::Cuts>(topic, action, seed, count),
                "smooth" => run::<smooth::Case>(topic, action, seed, count),
                "model" if action == "gen" => run::<hostile::Run>(topic, action, seed, count),
                "model" => {
                    model::hand::check();
                    met::forget();
                    run::<hostile::Run>(topic, action, seed, count) && met::table()
                }
                _ => return usage(),
            }
        }
        _ => return usage(),
    };
    if passed {
        ExitCode::SUCCESS
    } else {
        ExitCode::FAILURE
    }
}

const USAGE: &str = "usage: oracle read|write|receive|ack|timer|sender|serial|smooth|model gen|check SEED COUNT
       oracle slips|vectors gen|check
       oracle model answer
       oracle joined SEED MOVES
       oracle serial tell
       oracle smooth calls whole|float|none COUNT
       oracle lamps";

fn usage() -> ExitCode {
    eprintln!("{USAGE}");
    ExitCode::from(2)
}

/// The model in the place of our program.
fn answer_script() -> std::io::Result<()> {
    let mut script = vec![];
    stdin().read_to_end(&mut script)?;
    stdout().write_all(model::script::answers(&script).as_bytes())
}

/// The model in the place of our program `serial`.
fn tell_line() -> std::io::Result<()> {
    let mut line = vec![];
    stdin().read_to_end(&mut line)?;
    stdout().write_all(serial::told(&line).as_bytes())
}

fn run<C: Case>(topic: &str, action: &str, seed: u64, count: usize) -> bool {
    match action {
        "gen" => generate::<C>(seed, count).is_ok(),
        _ => check::<C>(topic, seed, count),
    }
}

fn generate<C: Case>(seed: u64, count: usize) -> std::io::Result<()> {
    let mut out = BufWriter::new(stdout().lock());
    (0..count).try_for_each(|index| out.write_all(&C::make(seed, index).script()))?;
    out.flush()
}

fn check<C: Case>(topic: &str, seed: u64, count: usize) -> bool {
    let mut answers = Answers::of_stdin();
    let mut tally = Tally::new(format!("{topic} (seed {seed}, {count} cases)"), C::LISTED);
    for index in 0..count {
        let case = C::make(seed, index);
        let ours: Vec<_> = (0..case.answers()).map_while(|_| answers.next()).collect();
        if ours.len() < case.answers() {
            return tally.finish(&mut answers, count - index);
        }
        for verdict in case.compare(&ours) {
            tally.note(index, verdict, || case.script());
        }
    }
    tally.finish(&mut answers, 0)
}
