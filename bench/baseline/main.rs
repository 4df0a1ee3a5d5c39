//! The replay once more, in plain Rust on std alone and without contracts, for `bench/run` to compare
//! with. It takes `TOPOLOGY SCRIPT`, and prints what `reset-service replay TOPOLOGY SCRIPT` prints
//! where the topology is good and names the application `idle` or `mutex`, and the script has no `act`
//! and no `newest`. Or it takes `verify TOPOLOGY HISTORY`, as `reset-service` does, of such topologies and
//! of histories without `act`, or `threads TOPOLOGY --turns N --history FILE`, of such topologies.

mod choices;
mod draw;
mod event;
mod faults;
mod history;
mod inject;
mod mutex;
mod network;
mod script;
mod tables;
mod threads;
mod topology;

use crate::history::{Verdict, verify};
use crate::network::{Network, boot};
use crate::script::replay;
use crate::threads::run_threads;
use crate::topology::read_topology;
use std::fs::File;
use std::io::{self, BufWriter, Write};
use std::process::ExitCode;
use std::{env, fs};

/// The most bytes of a topology or a script.
const MAX_TEXT: usize = 1_048_576;

fn main() -> ExitCode {
    match run() {
        Ok(status) => ExitCode::from(status),
        Err(error) => {
            eprintln!("{error}");
            ExitCode::from(3)
        }
    }
}

/// Does what the words ask for, and tells the status that the process ends with.
fn run() -> io::Result<u8> {
    let words: Vec<String> = env::args().skip(1).collect();
    let words: Vec<&str> = words.iter().map(String::as_str).collect();
    let mut out = BufWriter::new(io::stdout().lock());
    let status = match words.as_slice() {
        ["threads", topology, "--turns", turns, "--history", history] => {
            let turns = turns.parse().map_err(io::Error::other)?;
            let network = read_network(topology)?;
            let mut history = BufWriter::new(File::create(history)?);
            run_threads(network, turns, &mut history, &mut out)?;
            history.flush()?;
            0
        }
        ["verify", topology, history] => {
            let text = fs::read(history)?;
            match verify(&mut read_network(topology)?, &text, &mut out)? {
                Verdict::Good => 0,
                Verdict::NotEnabled => 1,
                Verdict::Bad => 2,
            }
        }
        [topology, script] => {
            let text = fs::read(script)?;
            if replay(&mut read_network(topology)?, &text, &mut out)? { 0 } else { 2 }
        }
        _ => return Err(io::Error::other("usage: baseline [verify] TOPOLOGY TEXT")),
    };
    out.flush()?;
    Ok(status)
}

/// The booted network of a topology.
fn read_network(topology: &str) -> io::Result<Network> {
    let topology = fs::read(topology)?;
    read_topology(&topology)
        .and_then(|(app, ids, links, modulus)| boot(app, ids, &links, modulus))
        .ok_or_else(|| io::Error::other("no good topology of the application idle or mutex"))
}
