//! What a node does by itself: the first entry that is allowed there, in a fixed order.

use crate::event::Event;
use crate::network::{Local, Network, Node};
use crate::tables::{Refusal, Reply};
use std::fmt;

/// What a node did: a step, or an action of `mutex`.
#[derive(Clone, Copy)]
pub enum Entry {
    Step(Event),
    Enter(u32),
    Leave(u32),
}

impl Network {
    /// The first entry that is allowed at the node, in a fixed order.
    pub fn next_entry(&self, node: &Node) -> Option<Entry> {
        let id = node.id;
        self.next_of_tree(node).or_else(|| self.next_of_wave(node)).map(Entry::Step).or_else(|| {
            match self.act_rows(node) {
                0 => None,
                rows if rows & 1 << 1 != 0 => Some(Entry::Enter(id)),
                _ => Some(Entry::Leave(id)),
            }
        })
    }

    fn next_of_tree(&self, node: &Node) -> Option<Event> {
        let up = self.father(node);
        if self.claim_rows(node, up) != 0 {
            return Some(Event::Claim(node.id));
        }
        if self.follow_rows(node, up) != 0 {
            return Some(Event::Follow(node.id));
        }
        let from = self.neighbours(node).find(|near| self.adopt_rows(node, near) != 0)?;
        Some(Event::Adopt(node.id, from.id))
    }

    fn next_of_wave(&self, node: &Node) -> Option<Event> {
        let (id, up) = (node.id, self.father(node));
        if self.mend_rows(node, up) != 0 {
            return Some(Event::Mend(id));
        }
        if self.join_rows(node, up) != 0 {
            return Some(Event::Join(id));
        }
        if self.finish_rows(node) != 0 {
            return Some(Event::Finish(id));
        }
        if Self::open_rows(node) != 0 {
            return Some(Event::Open(id));
        }
        let child = self.children(node).find(|near| Self::relay_rows(node, near) != 0)?;
        Some(Event::Relay(id, child.id))
    }

    /// Puts a node of `mutex` in, or out with the turns handed on.
    pub fn put_inside(&mut self, id: u32, inside: bool) -> Result<Reply, Refusal> {
        let at = self.find(id)?;
        let bit = self.nodes[at].local.bit;
        self.nodes[at].local = Local { inside, bit: if inside { bit } else { !bit } };
        Ok(Reply::Applied)
    }
}

impl fmt::Display for Entry {
    fn fmt(&self, f: &mut fmt::Formatter) -> fmt::Result {
        match self {
            Entry::Step(Event::Claim(at)) => write!(f, "claim {at}"),
            Entry::Step(Event::Follow(at)) => write!(f, "follow {at}"),
            Entry::Step(Event::Adopt(at, from)) => write!(f, "adopt {at} {from}"),
            Entry::Step(Event::Request(at)) => write!(f, "request {at}"),
            Entry::Step(Event::Relay(at, child)) => write!(f, "relay {at} {child}"),
            Entry::Step(Event::Open(at)) => write!(f, "open {at}"),
            Entry::Step(Event::Join(at)) => write!(f, "join {at}"),
            Entry::Step(Event::Finish(at)) => write!(f, "finish {at}"),
            Entry::Step(Event::Mend(at)) => write!(f, "mend {at}"),
            Entry::Enter(at) => write!(f, "act {at} 1"),
            Entry::Leave(at) => write!(f, "act {at} 2"),
        }
    }
}
