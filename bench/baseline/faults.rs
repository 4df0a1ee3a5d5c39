//! The faults of a network: which row of which table fails at a node, or at its end of a link.

use crate::network::{Network, Node};
use crate::tables::Rows;
use std::io::{self, Write};

/// A row that fails at a node's end of a link, or at the node itself, where `other` is the node.
struct Fault {
    at: u32,
    other: u32,
    family: &'static str,
    row: u32,
}

impl Network {
    /// Adds the faults of a node: its own one, and those of its links.
    fn faults(&self, node: &Node, found: &mut Vec<Fault>) {
        let mut add = |other: &Node, family, rows: Rows| {
            if rows != 0 {
                found.push(Fault {
                    at: node.id,
                    other: other.id,
                    family,
                    row: rows.trailing_zeros(),
                });
            }
        };
        add(node, "tree", self.claim_rows(node, self.father(node)));
        for near in self.neighbours(node) {
            let adopt = self.adopt_rows(node, near);
            if near.id == node.tree.father {
                add(near, "tree", adopt | self.follow_rows(node, Some(near)));
                add(near, "wave", self.mend_rows(node, Some(near)));
            } else {
                add(near, "tree", adopt);
            }
            add(near, "app", self.link_rows(node, near));
        }
    }
}

/// Writes the faults of these nodes and their number.
pub fn check<'n>(
    network: &'n Network,
    nodes: impl Iterator<Item = &'n Node>,
    out: &mut impl Write,
) -> io::Result<()> {
    let mut found = Vec::new();
    for node in nodes {
        network.faults(node, &mut found);
    }
    for Fault { at, other, family, row } in &found {
        writeln!(out, "link {at} {other} {family} {row}")?;
    }
    writeln!(out, "faults {}", found.len())
}
