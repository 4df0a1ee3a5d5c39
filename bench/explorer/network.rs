//! The network and the registers that an exploration begins with.

use std::collections::VecDeque;

/// The modulus of the sessions where a topology names none.
const SESSIONS: u64 = 1 << 32;

pub struct Network {
    /// Ascending.
    pub ids: Vec<u32>,
    /// The places of each node's neighbours, ascending.
    pub near: Vec<Vec<usize>>,
    pub modulus: u64,
}

#[derive(Clone, Copy, PartialEq, Eq)]
pub enum Phase {
    Normal,
    Initiate,
    Reset,
}

pub const PHASES: [Phase; 3] = [Phase::Normal, Phase::Initiate, Phase::Reset];

/// Registers as a script names them: a root and a father by identifier.
#[derive(Clone, Copy)]
pub struct Named {
    pub root: u32,
    pub father: u32,
    pub dist: u32,
    pub phase: Phase,
    pub session: u32,
}

/// What is left of a topology's text.
struct Cursor<'t>(&'t [u8]);

impl<'t> Cursor<'t> {
    /// Takes the byte if it comes next.
    fn take(&mut self, byte: u8) -> Option<()> {
        self.0 = self.0.trim_ascii_start().strip_prefix(&[byte])?;
        Some(())
    }

    /// The longest run of bytes that pass.
    fn run(&mut self, passes: fn(&u8) -> bool) -> &'t [u8] {
        let text = self.0.trim_ascii_start();
        let end = text.iter().position(|byte| !passes(byte)).unwrap_or(text.len());
        let (run, rest) = text.split_at(end);
        self.0 = rest;
        run
    }

    fn number(&mut self) -> Option<u64> {
        let digits = self.run(u8::is_ascii_digit);
        (!digits.is_empty() && digits.len() <= 10)
            .then(|| digits.iter().fold(0, |number, digit| number * 10 + u64::from(digit - b'0')))
    }

    fn id(&mut self) -> Option<u32> {
        self.number().filter(|id| (1..=65535).contains(id)).map(|id| id as u32)
    }

    fn pair(&mut self) -> Option<(u32, u32)> {
        self.take(b'[')?;
        let from = self.id()?;
        self.take(b',')?;
        let to = self.id()?;
        self.take(b']')?;
        Some((from, to))
    }

    /// The items of a list in brackets, each read by `item`.
    fn list<T>(&mut self, item: fn(&mut Self) -> Option<T>) -> Option<Vec<T>> {
        let mut items = Vec::new();
        self.take(b'[')?;
        while self.take(b']').is_none() {
            items.push(item(self)?);
            if self.take(b',').is_none() {
                self.take(b']')?;
                break;
            }
        }
        Some(items)
    }

    fn string(&mut self) -> Option<&'t [u8]> {
        self.take(b'"')?;
        let string = self.run(u8::is_ascii_alphabetic);
        self.take(b'"')?;
        Some(string)
    }
}

pub fn read_topology(text: &[u8]) -> Option<Network> {
    let mut text = Cursor(text);
    let (mut ids, mut links, mut modulus) = (None, None, SESSIONS);
    while !text.0.trim_ascii_start().is_empty() {
        let key = text.run(u8::is_ascii_alphabetic);
        text.take(b'=')?;
        match key {
            b"nodes" => ids = Some(text.list(Cursor::id)?),
            b"links" => links = Some(text.list(Cursor::pair)?),
            b"app" => drop(text.string()?),
            b"modulus" => modulus = text.number()?,
            _ => return None,
        }
    }
    let mut ids = ids?;
    ids.sort_unstable();
    let mut near = vec![Vec::new(); ids.len()];
    for (a, b) in links? {
        let (i, j) = (ids.binary_search(&a).ok()?, ids.binary_search(&b).ok()?);
        near[i].push(j);
        near[j].push(i);
    }
    near.iter_mut().for_each(|row| row.sort_unstable());
    Some(Network { ids, near, modulus })
}

/// The booted registers, and then what the lines of a script make of them.
pub fn read_script(network: &Network, script: &str) -> Option<Vec<Named>> {
    let mut named = booted(network);
    for line in script.lines() {
        let words: Vec<&str> = line.split(' ').collect();
        let number = |at: usize| words[at].parse::<u32>().ok();
        let place = |at: usize| network.ids.binary_search(&number(at)?).ok();
        match words.as_slice() {
            ["fault", "tree", _, _, _, _] => {
                let regs = &mut named[place(2)?];
                *regs = Named { root: number(3)?, father: number(4)?, dist: number(5)?, ..*regs };
            }
            ["fault", "wave", _, phase, _] => {
                let phase =
                    ["normal", "initiate", "reset"].iter().position(|name| name == phase)?;
                let regs = &mut named[place(2)?];
                *regs = Named { phase: PHASES[phase], session: number(4)?, ..*regs };
            }
            ["request", _] => named[place(1)?].phase = Phase::Initiate,
            _ => return None,
        }
    }
    Some(named)
}

/// Each node in the tree of shortest ways to the greatest that it reaches.
fn booted(network: &Network) -> Vec<Named> {
    let mut ways: Vec<Option<(usize, u32)>> = vec![None; network.ids.len()];
    for root in (0..ways.len()).rev().collect::<Vec<_>>() {
        if ways[root].is_some() {
            continue;
        }
        ways[root] = Some((root, 0));
        let mut queue = VecDeque::from([(root, 0)]);
        while let Some((at, dist)) = queue.pop_front() {
            for to in &network.near[at] {
                if ways[*to].is_none() {
                    ways[*to] = Some((root, dist + 1));
                    queue.push_back((*to, dist + 1));
                }
            }
        }
    }
    let ways: Vec<(usize, u32)> = ways.into_iter().flatten().collect();
    let nodes = ways.iter().enumerate().map(|(at, (root, dist))| {
        let father = network.near[at].iter().find(|to| ways[**to].1 < *dist).unwrap_or(&at);
        let (root, father) = (network.ids[*root], network.ids[*father]);
        Named { root, father, dist: *dist, phase: Phase::Normal, session: 0 }
    });
    nodes.collect()
}
