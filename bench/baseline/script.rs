//! Replaying a script: its lines, and the answers to them.

use crate::MAX_TEXT;
use crate::draw::draw;
use crate::event::split_event;
use crate::faults::check;
use crate::inject::{Fault, put_fault, read_fault};
use crate::network::{App, Network, Node, Tree, Wave};
use crate::tables::{Answer, Refusal, Reply, Rows};
use crate::topology::number;
use std::io::{self, Write};
use std::iter;

/// The most bytes of a line, without its line feed.
pub const MAX_LINE: usize = 256;

/// Answers the lines of a script, and says whether all of it was good.
pub fn replay(network: &mut Network, script: &[u8], out: &mut impl Write) -> io::Result<bool> {
    if script.len() > MAX_TEXT {
        out.write_all(b"bad script TooLong\n")?;
        return Ok(false);
    }
    let mut rest = script;
    for number in 1.. {
        if let Some((event, after)) = split_event(rest) {
            put_answer(network.step(event), out)?;
            rest = after;
            continue;
        }
        let end = rest.iter().position(|byte| *byte == b'\n');
        let line = &rest[..end.unwrap_or(rest.len())];
        let silent = line.is_empty() || line[0] == b'#';
        if line.len() > MAX_LINE || !silent && !answer(network, line, out)? {
            writeln!(out, "bad line {number}")?;
            return Ok(false);
        }
        let Some(end) = end else { break };
        rest = &rest[end + 1..];
    }
    Ok(true)
}

/// Does what a line says and writes the answer, or says that it is no command.
fn answer(network: &mut Network, line: &[u8], out: &mut impl Write) -> io::Result<bool> {
    let mut words = line.split(|byte| *byte == b' ');
    let answer = match words.next().unwrap_or_default() {
        b"fault" => read_fault(words).map(|fault| network.inject(&fault)),
        command => obey(network, command, words, out)?,
    };
    let Some(answer) = answer else {
        return Ok(false);
    };
    put_answer(answer, out)?;
    Ok(true)
}

/// Does a command whose further words are numbers.
fn obey<'l>(
    network: &mut Network,
    command: &[u8],
    mut words: impl Iterator<Item = &'l [u8]>,
    out: &mut impl Write,
) -> io::Result<Option<Answer>> {
    let one = words.next().map(number);
    let two = words.next().map(number);
    if words.next().is_some() {
        return Ok(None);
    }
    let answer = match (command, one, two) {
        (b"claim", Some(Some(at)), None) => network.claim(at),
        (b"follow", Some(Some(at)), None) => network.follow(at),
        (b"adopt", Some(Some(at)), Some(Some(from))) => network.adopt(at, from),
        (b"request", Some(Some(at)), None) => network.request(at),
        (b"relay", Some(Some(at)), Some(Some(child))) => network.relay(at, child),
        (b"open", Some(Some(at)), None) => network.open(at),
        (b"join", Some(Some(at)), None) => network.join(at),
        (b"finish", Some(Some(at)), None) => network.finish(at),
        (b"mend", Some(Some(at)), None) => network.mend(at),
        (b"alarm", Some(Some(at)), None) => alarm(network, at, out)?.map(|_| Reply::Told),
        (b"watch", Some(Some(at)), None) => match alarm(network, at, out)? {
            Ok(true) => network.request(at),
            quiet => quiet.map(|_| Reply::Told),
        },
        (b"draw", Some(Some(seed)), None) => disturb(network, &draw(network, seed), out)?,
        (b"show", Some(Some(at)), None) => ask(network, at, |node| show(network.app, node, out))?,
        (b"enabled", Some(Some(at)), None) => ask(network, at, |node| enabled(network, node, out))?,
        (b"check", Some(Some(at)), None) => {
            ask(network, at, |node| check(network, iter::once(node), out))?
        }
        (b"show", None, None) => {
            told(network.up_nodes().try_for_each(|node| show(network.app, node, out)))?
        }
        (b"check", None, None) => told(check(network, network.up_nodes(), out))?,
        (b"ready", None, None) => told(ready(network, out))?,
        _ => return Ok(None),
    };
    Ok(Some(answer))
}

/// Writes a fault that was drawn, and then does it.
fn disturb(network: &mut Network, fault: &Fault, out: &mut impl Write) -> io::Result<Answer> {
    out.write_all(b"drawn ")?;
    put_fault(fault, out)?;
    Ok(network.inject(fault))
}

/// The answer to a question about a node, which is told where there is such a node.
fn ask(
    network: &Network,
    id: u32,
    tell: impl FnOnce(&Node) -> io::Result<()>,
) -> io::Result<Answer> {
    match network.find(id) {
        Ok(at) => told(tell(&network.nodes[at])),
        Err(refusal) => Ok(Err(refusal)),
    }
}

/// The answer that has been written already.
fn told(written: io::Result<()>) -> io::Result<Answer> {
    written.map(|()| Ok(Reply::Told))
}

fn put_answer(answer: Answer, out: &mut impl Write) -> io::Result<()> {
    match answer {
        Ok(Reply::Applied) => out.write_all(b"applied\n"),
        Ok(Reply::Complete(session)) => writeln!(out, "complete {session}"),
        Ok(Reply::Disturbed) => out.write_all(b"disturbed\n"),
        Ok(Reply::Told) => Ok(()),
        Err(Refusal::StrangeNode) => out.write_all(b"refused StrangeNode\n"),
        Err(Refusal::StrangeNeighbour) => out.write_all(b"refused StrangeNeighbour\n"),
        Err(Refusal::NotEnabled) => out.write_all(b"refused NotEnabled\n"),
        Err(Refusal::BadValue) => out.write_all(b"refused BadValue\n"),
        Err(Refusal::BadLocal) => out.write_all(b"refused BadLocal\n"),
        Err(Refusal::NoSuchLink) => out.write_all(b"refused NoSuchLink\n"),
        Err(Refusal::LinkIsThere) => out.write_all(b"refused LinkIsThere\n"),
        Err(Refusal::NodeIsUp) => out.write_all(b"refused NodeIsUp\n"),
    }
}

fn show(app: App, node: &Node, out: &mut impl Write) -> io::Result<()> {
    let Node { id, tree: Tree { root, father, dist }, wave: Wave { phase, session }, .. } = node;
    let phase = phase.name();
    let local = match app {
        App::Idle => "-",
        App::Mutex => node.local.text(),
    };
    writeln!(out, "node {id} tree {root} {father} {dist} wave {phase} {session} local {local}")
}

/// Writes the first fault of the application at a node, or that there is none, and says whether there is.
fn alarm(network: &Network, at: u32, out: &mut impl Write) -> io::Result<Result<bool, Refusal>> {
    let node = match network.find(at) {
        Ok(place) => &network.nodes[place],
        Err(refusal) => return Ok(Err(refusal)),
    };
    let failing = |near: &&Node| network.link_rows(node, near) != 0;
    match network.neighbours(node).find(failing) {
        Some(near) => {
            let row = network.link_rows(node, near).trailing_zeros();
            writeln!(out, "alarm {at} {} {row}", near.id)?;
            Ok(Ok(true))
        }
        None => {
            out.write_all(b"quiet\n")?;
            Ok(Ok(false))
        }
    }
}

fn enabled(network: &Network, node: &Node, out: &mut impl Write) -> io::Result<()> {
    write!(out, "enabled {} tree ", node.id)?;
    put_rows(network.tree_rows(node), out)?;
    out.write_all(b" wave ")?;
    put_rows(network.wave_rows(node), out)?;
    out.write_all(b" act ")?;
    put_rows(network.act_rows(node), out)?;
    out.write_all(b"\n")
}

fn put_rows(rows: Rows, out: &mut impl Write) -> io::Result<()> {
    if rows == 0 {
        return out.write_all(b"-");
    }
    let mut comma = "";
    for row in (1..16).filter(|row| rows >> row & 1 == 1) {
        write!(out, "{comma}{row}")?;
        comma = ",";
    }
    Ok(())
}

fn ready(network: &Network, out: &mut impl Write) -> io::Result<()> {
    out.write_all(b"ready")?;
    let mut none = true;
    for node in network.up_nodes().filter(|node| network.is_ready(node)) {
        write!(out, " {}", node.id)?;
        none = false;
    }
    out.write_all(if none { b" -\n" } else { b"\n" })
}
