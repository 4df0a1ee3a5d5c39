//! Verifying a history: its lines, whether each entry is allowed where it stands, and the resets that
//! came to their end.

use crate::event::{Event, read_event};
use crate::inject::{Fault, read_fault};
use crate::network::Network;
use crate::script::MAX_LINE;
use crate::tables::{Refusal, Reply};
use crate::topology::{SESSIONS, modulus, number};
use std::io::{self, Write};

const MAX_ENTRIES: usize = 1_000_000;

/// What a history comes to.
pub enum Verdict {
    Good,
    NotEnabled,
    Bad,
}

/// An entry has 24 bytes. The texts of local states stay in the history's text.
enum Entry<'t> {
    Step(Event),
    Disturbed(Fault<'t>),
}

impl Entry<'_> {
    /// The first version of histories that has it.
    fn version(&self) -> u32 {
        match self {
            Entry::Disturbed(Fault::Off { .. } | Fault::On { .. }) => 3,
            _ => 1,
        }
    }
}

enum BadHistory {
    BadLine(usize),
    BadVersion,
    TooLong,
    OtherModulus(u64),
}

/// That a reset was completed. Positions of entries count from 1.
struct Report {
    number: u32,
    opened: Option<u32>,
    finished: u32,
}

/// Where the latest opening at each node is. One that came before the last fault doesn't count: so a fault
/// is one number, and needn't touch the table.
struct Openings {
    /// By the place of the node, with 0 where there was none.
    positions: Vec<u32>,
    last_fault: u32,
}

/// Plays a history from the booted network, and writes what it comes to. It is read whole before, since a
/// text that is no history is told as such, whatever its entries do.
pub fn verify(network: &mut Network, text: &[u8], out: &mut impl Write) -> io::Result<Verdict> {
    let entries = match read_history(network.modulus, text) {
        Ok(entries) => entries,
        Err(bad) => {
            put_bad(bad, out)?;
            return Ok(Verdict::Bad);
        }
    };
    match play(network, &entries) {
        Ok(reports) => {
            put_reports(&reports, out)?;
            writeln!(out, "verified {} entries {} reports", entries.len(), reports.len())?;
            Ok(Verdict::Good)
        }
        Err(position) => {
            writeln!(out, "not enabled at {position}")?;
            Ok(Verdict::NotEnabled)
        }
    }
}

/// The entries of a history's text, or its first line that a history can't have there, or else that it is one
/// of another modulus.
fn read_history(modulus: u64, mut text: &[u8]) -> Result<Vec<Entry<'_>>, BadHistory> {
    let first = take_line(&mut text).ok_or(BadHistory::BadLine(1))?;
    let (version, told) = read_first_line(first)?;
    let mut entries = Vec::new();
    while !text.is_empty() {
        let line = take_line(&mut text).filter(|line| line.len() <= MAX_LINE);
        let entry = line.and_then(read_entry).filter(|entry| entry.version() <= version);
        let entry = entry.ok_or(BadHistory::BadLine(entries.len() + 2))?;
        if entries.len() == MAX_ENTRIES {
            return Err(BadHistory::TooLong);
        }
        entries.push(entry);
    }
    if told == modulus { Ok(entries) } else { Err(BadHistory::OtherModulus(told)) }
}

/// The version and the modulus that a first line tells. That of version 1 tells none, and it was the greatest.
fn read_first_line(line: &[u8]) -> Result<(u32, u64), BadHistory> {
    let text = line.strip_prefix(b"reset-history ").ok_or(BadHistory::BadLine(1))?;
    for (version, front) in [(2, b"2 "), (3, b"3 ")] {
        if let Some(word) = text.strip_prefix(front) {
            let modulus = modulus(word).ok_or(BadHistory::BadLine(1))?;
            return Ok((version, modulus));
        }
    }
    match number(text) {
        Some(1) => Ok((1, SESSIONS)),
        None | Some(2 | 3) => Err(BadHistory::BadLine(1)),
        Some(_) => Err(BadHistory::BadVersion),
    }
}

/// Takes a line off the text, if it has a line feed, which is left out.
fn take_line<'t>(text: &mut &'t [u8]) -> Option<&'t [u8]> {
    let whole = *text;
    let end = text.iter().position(|byte| *byte == b'\n')?;
    *text = &whole[end + 1..];
    Some(&whole[..end])
}

/// The entry of a line. One with `act` is a good entry of a history too, but this program has no actions:
/// it takes such a line for a bad one, and is given none.
fn read_entry(line: &[u8]) -> Option<Entry<'_>> {
    let mut words = line.split(|byte| *byte == b' ');
    let command = words.next()?;
    if command == b"fault" {
        return read_fault(words).map(Entry::Disturbed);
    }
    let at = number(words.next()?)?;
    let other = match words.next() {
        Some(word) => Some(number(word)?),
        None => None,
    };
    if words.next().is_some() {
        return None;
    }
    read_event(command, at, other).map(Entry::Step)
}

/// Does the entries in turn. The completions, or the position of the first entry that is refused.
fn play(network: &mut Network, entries: &[Entry]) -> Result<Vec<Report>, u32> {
    let mut openings = Openings { positions: vec![0; network.nodes.len()], last_fault: 0 };
    let mut reports = Vec::new();
    for (position, entry) in (1..).zip(entries) {
        match enter(network, &mut openings, position, entry) {
            Ok(None) => {}
            Ok(Some(report)) => reports.push(report),
            Err(_) => return Err(position),
        }
    }
    Ok(reports)
}

/// Does one entry. It may tell a completion.
fn enter(
    network: &mut Network,
    openings: &mut Openings,
    position: u32,
    entry: &Entry,
) -> Result<Option<Report>, Refusal> {
    let event = match entry {
        Entry::Step(event) => *event,
        Entry::Disturbed(fault) => {
            network.inject(fault)?;
            openings.last_fault = position;
            return Ok(None);
        }
    };
    let reply = network.step(event)?;
    match (event, reply) {
        (Event::Open(at), _) => {
            openings.positions[network.find(at)?] = position;
            Ok(None)
        }
        (Event::Finish(at), Reply::Complete(number)) => {
            let latest = openings.positions[network.find(at)?];
            let opened = Some(latest).filter(|latest| *latest > openings.last_fault);
            Ok(Some(Report { number, opened, finished: position }))
        }
        _ => Ok(None),
    }
}

fn put_reports(reports: &[Report], out: &mut impl Write) -> io::Result<()> {
    for Report { number, opened, finished } in reports {
        match opened {
            Some(opened) => writeln!(out, "report {number} opened {opened} finished {finished}")?,
            None => writeln!(out, "report {number} opened - finished {finished}")?,
        }
    }
    Ok(())
}

fn put_bad(bad: BadHistory, out: &mut impl Write) -> io::Result<()> {
    match bad {
        BadHistory::BadLine(line) => writeln!(out, "bad history BadLine {line}"),
        BadHistory::BadVersion => out.write_all(b"bad history BadVersion\n"),
        BadHistory::TooLong => out.write_all(b"bad history TooLong\n"),
        BadHistory::OtherModulus(told) => writeln!(out, "bad history OtherModulus {told}"),
    }
}
