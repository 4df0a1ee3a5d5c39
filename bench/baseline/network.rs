//! The network, and what is known of it at the start.

use std::collections::VecDeque;

const MAX_NODES: usize = 1024;
pub const MAX_LINKS: usize = 8192;

#[derive(Clone, Copy)]
pub struct Tree {
    pub root: u32,
    pub father: u32,
    pub dist: u32,
}

#[derive(Clone, Copy, PartialEq, Eq)]
pub enum Phase {
    Normal,
    Initiate,
    Reset,
}

impl Phase {
    pub fn read(word: &[u8]) -> Option<Phase> {
        match word {
            b"normal" => Some(Phase::Normal),
            b"initiate" => Some(Phase::Initiate),
            b"reset" => Some(Phase::Reset),
            _ => None,
        }
    }

    pub fn name(self) -> &'static str {
        match self {
            Phase::Normal => "normal",
            Phase::Initiate => "initiate",
            Phase::Reset => "reset",
        }
    }
}

#[derive(Clone, Copy)]
pub struct Wave {
    pub phase: Phase,
    pub session: u32,
}

#[derive(Clone, Copy, PartialEq, Eq)]
pub enum App {
    Idle,
    Mutex,
}

/// What a node of `mutex` keeps. One of `idle` keeps nothing, and leaves this at its start.
#[derive(Clone, Copy, Default)]
pub struct Local {
    pub inside: bool,
    pub bit: bool,
}

pub struct Node {
    pub id: u32,
    pub tree: Tree,
    pub wave: Wave,
    pub local: Local,
    /// The places of the neighbours, ascending.
    pub near: Vec<usize>,
}

pub struct Network {
    /// By ascending id, those that are down too.
    pub nodes: Vec<Node>,
    /// The place of each id among the nodes, if it is the id of one that is up.
    pub places: Vec<Option<u16>>,
    pub link_count: usize,
    pub app: App,
    /// Sessions are counted modulo this number.
    pub modulus: u64,
}

/// The network in which each node has its place in the tree of shortest ways to the greatest id that can be
/// reached from it. None where the ids, which ascend, and the links are no graph.
pub fn boot(app: App, ids: Vec<u32>, links: &[(u32, u32)], modulus: u64) -> Option<Network> {
    let (least, greatest) = (*ids.first()?, *ids.last()?);
    let twice = ids.windows(2).any(|pair| pair[0] == pair[1]);
    if ids.len() > MAX_NODES || links.len() > MAX_LINKS || least < 1 || greatest > 65535 || twice {
        return None;
    }
    let mut places = vec![None; greatest as usize + 1];
    for (place, id) in ids.iter().enumerate() {
        places[*id as usize] = Some(place as u16);
    }
    let near = neighbours(&places, ids.len(), links)?;
    let ways = ways(&near);
    let nodes = near.into_iter().enumerate().map(|(place, near)| {
        let (root, dist) = ways[place];
        let nearer = near.iter().find(|near| ways[**near].1 + 1 == dist);
        Node {
            id: ids[place],
            tree: Tree { root: ids[root], father: ids[*nearer.unwrap_or(&root)], dist },
            wave: Wave { phase: Phase::Normal, session: 0 },
            local: Local::default(),
            near,
        }
    });
    Some(Network { nodes: nodes.collect(), places, link_count: links.len(), app, modulus })
}

/// The places of each node's neighbours, ascending.
fn neighbours(
    places: &[Option<u16>],
    count: usize,
    links: &[(u32, u32)],
) -> Option<Vec<Vec<usize>>> {
    let place = |id: u32| places.get(id as usize).copied().flatten().map(usize::from);
    let mut near = vec![Vec::new(); count];
    for (a, b) in links {
        let (i, j) = (place(*a)?, place(*b)?);
        near[i].push(j);
        near[j].push(i);
    }
    for (place, row) in near.iter_mut().enumerate() {
        row.sort_unstable();
        if row.windows(2).any(|pair| pair[0] == pair[1]) || row.binary_search(&place).is_ok() {
            return None;
        }
    }
    Some(near)
}

/// Of each node the place of the greatest one that can be reached from it, and the distance to that.
fn ways(near: &[Vec<usize>]) -> Vec<(usize, u32)> {
    let mut ways = vec![None; near.len()];
    for root in (0..near.len()).rev() {
        if ways[root].is_some() {
            continue;
        }
        ways[root] = Some((root, 0));
        let mut queue = VecDeque::from([(root, 0)]);
        while let Some((place, dist)) = queue.pop_front() {
            for next in &near[place] {
                if ways[*next].is_none() {
                    ways[*next] = Some((root, dist + 1));
                    queue.push_back((*next, dist + 1));
                }
            }
        }
    }
    ways.into_iter().flatten().collect()
}

impl Network {
    pub fn bound(&self) -> u32 {
        self.nodes.len() as u32
    }

    /// The nodes that are up.
    pub fn up_nodes(&self) -> impl Iterator<Item = &Node> {
        self.nodes.iter().filter(|node| self.places[node.id as usize].is_some())
    }

    /// The session after another. Mostly that is one more: a division is left to those where it isn't.
    pub fn successor(&self, session: u32) -> u32 {
        let next = u64::from(session) + 1;
        (if next < self.modulus { next } else { next % self.modulus }) as u32
    }

    pub fn place(&self, id: u32) -> Option<usize> {
        self.places.get(id as usize).copied().flatten().map(usize::from)
    }

    /// The neighbour with this id.
    pub fn neighbour(&self, node: &Node, id: u32) -> Option<&Node> {
        let place = self.place(id).filter(|place| node.near.binary_search(place).is_ok())?;
        Some(&self.nodes[place])
    }

    /// The father, where it is a neighbour.
    pub fn father(&self, node: &Node) -> Option<&Node> {
        self.neighbour(node, node.tree.father)
    }

    pub fn neighbours(&self, node: &Node) -> impl Iterator<Item = &Node> {
        node.near.iter().map(|place| &self.nodes[*place])
    }

    /// The neighbours whose father the node is.
    pub fn children(&self, node: &Node) -> impl Iterator<Item = &Node> {
        let id = node.id;
        self.neighbours(node).filter(move |near| near.tree.father == id)
    }
}
