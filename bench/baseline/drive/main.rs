//! The seeded scheduler once more, in plain Rust on std alone and without contracts, for `bench/run` to
//! compare with. It takes `TOPOLOGY --steps N --seed S --history FILE [--faults P]`, and writes what
//! `reset-service drive` writes with these words, where the topology is good and has its keys in their simple form.

mod apps;
mod history;
mod network;
mod random;
mod ready;
mod scheduler;
mod topology;

use crate::apps::{Idle, Mutex, Routes, Token};
use crate::history::History;
use crate::network::boot;
use crate::scheduler::{Plan, drive};
use crate::topology::read_topology;
use std::fs::File;
use std::io::{self, BufWriter};
use std::process::ExitCode;
use std::{env, fs};

fn main() -> ExitCode {
    match run() {
        Ok(()) => ExitCode::SUCCESS,
        Err(error) => {
            eprintln!("{error}");
            ExitCode::from(3)
        }
    }
}

fn run() -> io::Result<()> {
    let words: Vec<String> = env::args().skip(1).collect();
    let words: Vec<&str> = words.iter().map(String::as_str).collect();
    let (topology, steps, seed, history, faults) = match words.as_slice() {
        [topology, "--steps", steps, "--seed", seed, "--history", history] => {
            (topology, steps, seed, history, &"0")
        }
        [topology, "--steps", steps, "--seed", seed, "--history", history, "--faults", faults] => {
            (topology, steps, seed, history, faults)
        }
        _ => {
            return Err(io::Error::other(
                "usage: drive TOPOLOGY --steps N --seed S --history FILE [--faults P]",
            ));
        }
    };
    let number = |word: &str| word.parse::<u32>().map_err(io::Error::other);
    let plan = Plan { steps: number(steps)?, seed: number(seed)?, faults: number(faults)? };
    let text = fs::read(topology)?;
    let topology = read_topology(&text).ok_or_else(|| io::Error::other("no good topology"))?;
    let history = History {
        lines: BufWriter::with_capacity(1 << 16, File::create(history)?),
        entries: 0,
        reports: 0,
    };
    let history = match topology.app {
        b"idle" => drive(boot::<Idle>(&topology), plan, history)?,
        b"token" => drive(boot::<Token>(&topology), plan, history)?,
        b"mutex" => drive(boot::<Mutex>(&topology), plan, history)?,
        b"routes" => drive(boot::<Routes>(&topology), plan, history)?,
        _ => return Err(io::Error::other("no such application")),
    };
    println!("drove {} entries {} reports", history.entries, history.reports);
    Ok(())
}
