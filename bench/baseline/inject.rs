//! Injecting faults: registers, local states and links that change by no step.

use crate::network::{App, Local, MAX_LINKS, Network, Phase, Tree, Wave};
use crate::tables::{Answer, Refusal, Reply};
use crate::topology::number;
use std::io::{self, Write};

/// The most bytes of a local state's text.
const MAX_LOCAL: usize = 200;

pub enum Fault<'t> {
    Tree { at: u32, tree: Tree },
    Wave { at: u32, wave: Wave },
    Local { at: u32, text: &'t [u8] },
    Down { a: u32, b: u32 },
    Up { a: u32, b: u32 },
    Off { at: u32 },
    On { at: u32 },
}

/// Reads the words of a fault after the word `fault`.
pub fn read_fault<'t>(mut words: impl Iterator<Item = &'t [u8]>) -> Option<Fault<'t>> {
    let kind = words.next()?;
    let at = number(words.next()?)?;
    let fault = match kind {
        b"tree" => {
            let mut register = || number(words.next()?);
            let tree = Tree { root: register()?, father: register()?, dist: register()? };
            Fault::Tree { at, tree }
        }
        b"wave" => {
            let phase = Phase::read(words.next()?)?;
            Fault::Wave { at, wave: Wave { phase, session: number(words.next()?)? } }
        }
        b"local" => {
            let text = words.next()?;
            if text.is_empty() || !text.iter().all(u8::is_ascii_graphic) {
                return None;
            }
            Fault::Local { at, text }
        }
        b"down" => Fault::Down { a: at, b: number(words.next()?)? },
        b"up" => Fault::Up { a: at, b: number(words.next()?)? },
        b"off" => Fault::Off { at },
        b"on" => Fault::On { at },
        _ => return None,
    };
    words.next().is_none().then_some(fault)
}

/// Writes a fault as the command that it is.
pub fn put_fault(fault: &Fault, out: &mut impl Write) -> io::Result<()> {
    match fault {
        Fault::Tree { at, tree: Tree { root, father, dist } } => {
            writeln!(out, "fault tree {at} {root} {father} {dist}")
        }
        Fault::Wave { at, wave: Wave { phase, session } } => {
            writeln!(out, "fault wave {at} {} {session}", phase.name())
        }
        Fault::Local { at, text } => {
            write!(out, "fault local {at} ")?;
            out.write_all(text)?;
            out.write_all(b"\n")
        }
        Fault::Down { a, b } => writeln!(out, "fault down {a} {b}"),
        Fault::Up { a, b } => writeln!(out, "fault up {a} {b}"),
        Fault::Off { at } => writeln!(out, "fault off {at}"),
        Fault::On { at } => writeln!(out, "fault on {at}"),
    }
}

impl Network {
    pub fn inject(&mut self, fault: &Fault) -> Answer {
        match *fault {
            Fault::Tree { at, tree } => {
                let at = self.find(at)?;
                let is_id = |id: u32| (1..=65535).contains(&id);
                if !is_id(tree.root) || !is_id(tree.father) {
                    return Err(Refusal::BadValue);
                }
                self.nodes[at].tree = tree;
            }
            Fault::Wave { at, wave } => {
                let at = self.find(at)?;
                self.nodes[at].wave = wave;
            }
            Fault::Local { at, text } => {
                let at = self.find(at)?;
                self.nodes[at].local = self.read_local(text).ok_or(Refusal::BadLocal)?;
            }
            Fault::Down { a, b } => self.unlink(a, b)?,
            Fault::Up { a, b } => self.link(a, b)?,
            Fault::Off { at } => self.take_off(at)?,
            Fault::On { at } => self.put_on(at)?,
        }
        Ok(Reply::Disturbed)
    }

    fn read_local(&self, text: &[u8]) -> Option<Local> {
        match self.app {
            _ if text.len() > MAX_LOCAL => None,
            App::Idle => (text == b"-").then(Local::default),
            App::Mutex => Local::read(text),
        }
    }

    fn link(&mut self, a: u32, b: u32) -> Result<(), Refusal> {
        let (i, j) = (self.find(a)?, self.find(b)?);
        if i == j {
            return Err(Refusal::BadValue);
        }
        let Err(to) = self.nodes[i].near.binary_search(&j) else {
            return Err(Refusal::LinkIsThere);
        };
        if self.link_count == MAX_LINKS {
            return Err(Refusal::BadValue);
        }
        self.nodes[i].near.insert(to, j);
        let back = &mut self.nodes[j].near;
        back.insert(back.partition_point(|place| *place < i), i);
        self.link_count += 1;
        Ok(())
    }

    fn unlink(&mut self, a: u32, b: u32) -> Result<(), Refusal> {
        let (i, j) = (self.find(a)?, self.find(b)?);
        let Ok(to) = self.nodes[i].near.binary_search(&j) else {
            return Err(Refusal::NoSuchLink);
        };
        self.nodes[i].near.remove(to);
        self.nodes[j].near.retain(|place| *place != i);
        self.link_count -= 1;
        Ok(())
    }

    /// A node goes down, and its links are gone.
    fn take_off(&mut self, id: u32) -> Result<(), Refusal> {
        let at = self.find(id)?;
        for near in std::mem::take(&mut self.nodes[at].near) {
            self.nodes[near].near.retain(|place| *place != at);
            self.link_count -= 1;
        }
        self.places[id as usize] = None;
        Ok(())
    }

    /// A node that is down comes up, without links, as one would start that is alone.
    fn put_on(&mut self, id: u32) -> Result<(), Refusal> {
        let at = self.nodes.binary_search_by_key(&id, |node| node.id);
        let at = at.map_err(|_| Refusal::StrangeNode)?;
        if self.places[id as usize].is_some() {
            return Err(Refusal::NodeIsUp);
        }
        self.places[id as usize] = Some(at as u16);
        let node = &mut self.nodes[at];
        node.tree = Tree { root: id, father: id, dist: 0 };
        node.wave = Wave { phase: Phase::Normal, session: 0 };
        node.local = Local::default();
        Ok(())
    }
}
