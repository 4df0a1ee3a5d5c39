//! The tables of the tree and of the wave: which rows are enabled where, and what they do.

use crate::network::{Local, Network, Node, Phase, Tree, Wave};

/// A set of rows of a table: bit `n` stands for row `n`.
pub type Rows = u16;

const REQUEST: Rows = 1 << 1;

pub fn row(number: u32, enabled: bool) -> Rows {
    Rows::from(enabled) << number
}

/// Goes on where one of the rows is enabled.
fn some(rows: Rows) -> Result<(), Refusal> {
    if rows == 0 { Err(Refusal::NotEnabled) } else { Ok(()) }
}

pub enum Reply {
    Applied,
    Complete(u32),
    /// To a fault that was injected.
    Disturbed,
    /// The answer has been written already.
    Told,
}

pub enum Refusal {
    StrangeNode,
    StrangeNeighbour,
    NotEnabled,
    BadValue,
    BadLocal,
    NoSuchLink,
    LinkIsThere,
    NodeIsUp,
}

pub type Answer = Result<Reply, Refusal>;

impl Network {
    pub fn find(&self, id: u32) -> Result<usize, Refusal> {
        self.place(id).ok_or(Refusal::StrangeNode)
    }

    fn find_neighbour(&self, node: &Node, id: u32) -> Result<&Node, Refusal> {
        self.neighbour(node, id).ok_or(Refusal::StrangeNeighbour)
    }

    // The tree table.

    pub fn claim_rows(&self, node: &Node, up: Option<&Node>) -> Rows {
        let Node { id, tree, .. } = *node;
        let own = tree.father == id;
        row(1, tree.root < id)
            | row(2, own && (tree.root != id || tree.dist != 0))
            | row(3, !own && up.is_none())
            | row(4, tree.dist >= self.bound())
    }

    pub fn follow_rows(&self, node: &Node, up: Option<&Node>) -> Rows {
        let tree = node.tree;
        match up {
            Some(up) if tree.dist < self.bound() => {
                let same = tree.root == up.tree.root;
                row(5, !same) | row(6, same && u64::from(tree.dist) != u64::from(up.tree.dist) + 1)
            }
            _ => 0,
        }
    }

    pub fn adopt_rows(&self, node: &Node, from: &Node) -> Rows {
        let (tree, near) = (node.tree, from.tree);
        let below = near.dist < self.bound();
        row(7, below && tree.root < near.root)
            | row(8, below && tree.root == near.root && near.dist + 1 < tree.dist)
    }

    pub fn tree_rows(&self, node: &Node) -> Rows {
        let up = self.father(node);
        let own = self.claim_rows(node, up) | self.follow_rows(node, up);
        self.neighbours(node).fold(own, |rows, near| rows | self.adopt_rows(node, near))
    }

    pub fn claim(&mut self, id: u32) -> Answer {
        let at = self.find(id)?;
        let node = &self.nodes[at];
        some(self.claim_rows(node, self.father(node)))?;
        self.nodes[at].tree = Tree { root: id, father: id, dist: 0 };
        Ok(Reply::Applied)
    }

    pub fn follow(&mut self, id: u32) -> Answer {
        let at = self.find(id)?;
        let node = &self.nodes[at];
        let up = self.father(node).ok_or(Refusal::NotEnabled)?;
        some(self.follow_rows(node, Some(up)))?;
        let dist = up.tree.dist.saturating_add(1).min(self.bound());
        self.nodes[at].tree = Tree { root: up.tree.root, dist, ..node.tree };
        Ok(Reply::Applied)
    }

    pub fn adopt(&mut self, id: u32, from: u32) -> Answer {
        let at = self.find(id)?;
        let node = &self.nodes[at];
        let near = self.find_neighbour(node, from)?;
        some(self.adopt_rows(node, near))?;
        self.nodes[at].tree = Tree { root: near.tree.root, father: from, dist: near.tree.dist + 1 };
        Ok(Reply::Applied)
    }

    // The wave table.

    fn request_rows(node: &Node) -> Rows {
        row(1, node.wave.phase == Phase::Normal)
    }

    pub fn relay_rows(node: &Node, near: &Node) -> Rows {
        let asks = near.tree.father == node.id && near.wave.phase == Phase::Initiate;
        row(2, asks && node.wave.phase == Phase::Normal)
    }

    pub fn open_rows(node: &Node) -> Rows {
        row(3, node.tree.father == node.id && node.wave.phase == Phase::Initiate)
    }

    pub fn join_rows(&self, node: &Node, up: Option<&Node>) -> Rows {
        let wave = node.wave;
        let joins = up.is_some_and(|up| {
            up.wave.phase == Phase::Reset && up.wave.session == self.successor(wave.session)
        });
        row(4, joins && wave.phase == Phase::Normal)
            | row(5, joins && wave.phase == Phase::Initiate)
    }

    pub fn finish_rows(&self, node: &Node) -> Rows {
        let session = node.wave.session;
        let done = node.wave.phase == Phase::Reset
            && self
                .children(node)
                .all(|child| child.wave.phase != Phase::Reset && child.wave.session == session);
        let root = node.tree.father == node.id;
        row(6, done && !root) | row(7, done && root)
    }

    pub fn mend_rows(&self, node: &Node, up: Option<&Node>) -> Rows {
        let Some(up) = up else {
            return 0;
        };
        let reset = node.wave.phase == Phase::Reset;
        let above = up.wave.phase == Phase::Reset;
        let differs = node.wave.session != up.wave.session;
        let late = differs && up.wave.session != self.successor(node.wave.session);
        row(8, !above && reset)
            | row(9, !above && !reset && differs)
            | row(10, above && reset && differs)
            | row(11, above && !reset && late)
    }

    pub fn wave_rows(&self, node: &Node) -> Rows {
        let up = self.father(node);
        let own = Self::request_rows(node)
            | Self::open_rows(node)
            | self.join_rows(node, up)
            | self.finish_rows(node)
            | self.mend_rows(node, up);
        self.neighbours(node).fold(own, |rows, near| rows | Self::relay_rows(node, near))
    }

    pub fn request(&mut self, id: u32) -> Answer {
        let at = self.find(id)?;
        some(Self::request_rows(&self.nodes[at]))?;
        self.nodes[at].wave.phase = Phase::Initiate;
        Ok(Reply::Applied)
    }

    pub fn relay(&mut self, id: u32, child: u32) -> Answer {
        let at = self.find(id)?;
        let node = &self.nodes[at];
        some(Self::relay_rows(node, self.find_neighbour(node, child)?))?;
        self.nodes[at].wave.phase = Phase::Initiate;
        Ok(Reply::Applied)
    }

    pub fn open(&mut self, id: u32) -> Answer {
        let at = self.find(id)?;
        some(Self::open_rows(&self.nodes[at]))?;
        let session = self.successor(self.nodes[at].wave.session);
        self.restart(at, session);
        Ok(Reply::Applied)
    }

    pub fn join(&mut self, id: u32) -> Answer {
        let at = self.find(id)?;
        let node = &self.nodes[at];
        some(self.join_rows(node, self.father(node)))?;
        let session = self.successor(node.wave.session);
        self.restart(at, session);
        Ok(Reply::Applied)
    }

    /// Puts a node into the reset of this session, with its local state at the start.
    fn restart(&mut self, at: usize, session: u32) {
        self.nodes[at].wave = Wave { phase: Phase::Reset, session };
        self.nodes[at].local = Local::default();
    }

    pub fn finish(&mut self, id: u32) -> Answer {
        let at = self.find(id)?;
        some(self.finish_rows(&self.nodes[at]))?;
        let node = &mut self.nodes[at];
        node.wave.phase = Phase::Normal;
        Ok(if node.tree.father == id { Reply::Complete(node.wave.session) } else { Reply::Applied })
    }

    pub fn mend(&mut self, id: u32) -> Answer {
        let at = self.find(id)?;
        let node = &self.nodes[at];
        let up = self.father(node).ok_or(Refusal::NotEnabled)?;
        some(self.mend_rows(node, Some(up)))?;
        self.nodes[at].wave = up.wave;
        Ok(Reply::Applied)
    }

    pub fn is_ready(&self, node: &Node) -> bool {
        self.tree_rows(node) != 0
            || self.wave_rows(node) & !REQUEST != 0
            || self.act_rows(node) != 0
    }
}
