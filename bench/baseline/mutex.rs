//! The tables of `mutex`: which actions a node can take, and which rows fail at its end of a link.

use crate::network::{App, Local, Network, Node};
use crate::tables::{Rows, row};

impl Local {
    /// Reads `in` or `out`, a slash and a bit.
    pub fn read(text: &[u8]) -> Option<Local> {
        let (inside, bit) = match text {
            b"in/0" => (true, false),
            b"in/1" => (true, true),
            b"out/0" => (false, false),
            b"out/1" => (false, true),
            _ => return None,
        };
        Some(Local { inside, bit })
    }

    pub fn text(self) -> &'static str {
        match (self.inside, self.bit) {
            (true, false) => "in/0",
            (true, true) => "in/1",
            (false, false) => "out/0",
            (false, true) => "out/1",
        }
    }
}

/// Whether the turn of the link is the node's: the lesser end's where the two bits are equal.
fn holds_turn(node: &Node, near: &Node) -> bool {
    (node.id < near.id) == (node.local.bit == near.local.bit)
}

impl Network {
    /// The actions that a node can take. It can't where it would read a node of another session.
    pub fn act_rows(&self, node: &Node) -> Rows {
        if self.app == App::Idle {
            return 0;
        }
        let inside = node.local.inside;
        let enters = !inside
            && self
                .neighbours(node)
                .all(|near| near.wave.session == node.wave.session && holds_turn(node, near));
        row(1, enters) | row(2, inside)
    }

    /// The rows of the link table that fail at the node's end. None does where the sessions differ, nor
    /// where nobody is in, as with `idle`.
    pub fn link_rows(&self, node: &Node, near: &Node) -> Rows {
        let asked = node.local.inside && node.wave.session == near.wave.session;
        row(1, asked && near.local.inside) | row(2, asked && !holds_turn(node, near))
    }
}
