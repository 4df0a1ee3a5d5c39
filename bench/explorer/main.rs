//! All schedules of a small network, in plain Rust on std alone and without contracts, to compare with. It takes
//! `TOPOLOGY SCRIPT`, where the script has lines `fault tree`, `fault wave` and `request` alone: the registers that it
//! leaves of the booted ones are where the exploration begins. From there every order of the events `claim`, `follow`,
//! `adopt`, `relay`, `open`, `join`, `finish` and `mend` is tried, and no request and no action of the application.
//!
//! A configuration is one word of 64 or 128 bits. Those that were reached, by breadth, stand in one table, each with
//! the number of events that lead to it. Afterwards the events are tried once more, each configuration after all from
//! which one leads to it: so the longest run is found, or a cycle is what is left.

mod model;
mod network;
mod reached;

use crate::model::{Model, Regs};
use crate::network::{read_script, read_topology};
use crate::reached::explore;
use std::io;
use std::process::ExitCode;
use std::{env, fs};

fn main() -> ExitCode {
    match run() {
        Ok(()) => ExitCode::SUCCESS,
        Err(error) => {
            eprintln!("{error}");
            ExitCode::from(3)
        }
    }
}

fn run() -> io::Result<()> {
    let words: Vec<String> = env::args().skip(1).collect();
    let [topology, script] = words.as_slice() else {
        return Err(io::Error::other("usage: explore TOPOLOGY SCRIPT"));
    };
    let (topology, script) = (fs::read(topology)?, fs::read_to_string(script)?);
    let network = read_topology(&topology).ok_or_else(|| io::Error::other("no good topology"))?;
    let start = read_script(&network, &script).ok_or_else(|| io::Error::other("no good script"))?;
    let model = Model::new(&network, &start);
    let regs = start.iter().enumerate().map(|(at, named)| model.regs_of(&network, at, *named));
    let start: Vec<Regs> = regs.collect();
    let found = match model.bits() {
        0..=64 => explore::<u64>(&model, &start),
        65..=128 => explore::<u128>(&model, &start),
        _ => return Err(io::Error::other("the network is too large")),
    };
    let found = found.ok_or_else(|| io::Error::other("a session is too great"))?;
    println!("configurations {}", found.configurations);
    println!("steps {}", found.transitions);
    println!("ends {}", found.ends);
    match found.longest {
        Some(longest) => println!("longest {longest}"),
        None => println!("endless"),
    }
    Ok(())
}
