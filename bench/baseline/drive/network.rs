//! The network. No step looks at more than the links of one node: of each link it is kept what its ends may do
//! over it, and of each node how many of its links say so.

use crate::apps::App;
use crate::ready::ReadySet;
use crate::topology::Topology;
use std::collections::VecDeque;

const MAX_LINKS: usize = 8192;

/// A place of a node, by ascending id. Drawn registers name nodes alone, so these are kept as places.
pub type Place = u32;

#[derive(Clone, Copy, PartialEq, Eq)]
pub enum Phase {
    Normal,
    Initiate,
    Reset,
}

#[derive(Clone, Copy)]
pub struct Node {
    pub root: Place,
    pub father: Place,
    pub dist: u32,
    pub phase: Phase,
    pub session: u32,
}

/// What the registers at the two ends of a link come to at one of them, a bit each.
pub type Flags = u8;

/// It may adopt the other end.
pub const ADOPTS: u32 = 0;
/// The other end is a child that asks for a reset.
pub const ASKED: u32 = 1;
/// The other end is a child that isn't done with the reset.
pub const AWAITS: u32 = 2;
/// The other end is the father.
pub const FOLLOWS: u32 = 3;
/// What the application says of the link.
pub const ACTS: u32 = 4;

#[derive(Clone, Copy)]
pub struct Link {
    pub to: Place,
    pub flags: Flags,
}

pub struct Network<A: App> {
    pub ids: Vec<u32>,
    pub nodes: Vec<Node>,
    pub locals: Vec<A::Local>,
    /// The links of each node, by ascending place.
    pub links: Vec<Vec<Link>>,
    pub link_count: usize,
    /// Of each node how many of its links have each of the flags.
    pub counts: Vec<[u32; 5]>,
    pub ready: ReadySet,
    /// The greatest place that each one reaches, where that is known and links haven't changed since.
    pub leaders: Option<Vec<Place>>,
    pub modulus: u64,
}

#[derive(Clone, Copy)]
pub enum Event {
    Claim,
    Follow,
    Adopt(Place),
    Mend,
    Join,
    Finish,
    Open,
    Request,
    Relay(Place),
    Act(u8),
    ActToward(u8, Place),
}

pub fn boot<A: App>(topology: &Topology) -> Network<A> {
    let count = topology.ids.len();
    let place = |id| topology.ids.binary_search(id).expect("a link's end is a node") as Place;
    let mut links = vec![Vec::new(); count];
    for (a, b) in &topology.links {
        let (i, j) = (place(a), place(b));
        links[i as usize].push(Link { to: j, flags: 0 });
        links[j as usize].push(Link { to: i, flags: 0 });
    }
    for row in &mut links {
        row.sort_unstable_by_key(|link| link.to);
    }
    let ways = ways(&links);
    let nodes = (0..).zip(&ways).map(|(at, (root, dist))| {
        let nearer = links[at as usize].iter().find(|link| ways[link.to as usize].1 < *dist);
        let father = nearer.map_or(at, |link| link.to);
        Node { root: *root, father, dist: *dist, phase: Phase::Normal, session: 0 }
    });
    let mut network = Network {
        nodes: nodes.collect(),
        locals: (0..).zip(&ways).map(|(at, (root, _))| A::start(at, *root)).collect(),
        links,
        link_count: topology.links.len(),
        counts: vec![[0; 5]; count],
        ready: ReadySet::new(count),
        leaders: None,
        ids: topology.ids.clone(),
        modulus: topology.modulus,
    };
    (0..count as Place).for_each(|at| network.refresh(at));
    network
}

/// Of each node the greatest that it reaches and the distance to that.
pub fn ways(links: &[Vec<Link>]) -> Vec<(Place, u32)> {
    let mut ways = vec![None; links.len()];
    let mut queue = VecDeque::new();
    for root in (0..links.len() as Place).rev() {
        if ways[root as usize].is_some() {
            continue;
        }
        ways[root as usize] = Some((root, 0));
        queue.push_back((root, 0));
        while let Some((at, dist)) = queue.pop_front() {
            for link in &links[at as usize] {
                let way = &mut ways[link.to as usize];
                if way.is_none() {
                    *way = Some((root, dist + 1));
                    queue.push_back((link.to, dist + 1));
                }
            }
        }
    }
    ways.into_iter().flatten().collect()
}

impl<A: App> Network<A> {
    /// The bound K of the distances.
    pub fn bound(&self) -> u32 {
        self.nodes.len() as u32
    }

    pub fn node(&self, at: Place) -> &Node {
        &self.nodes[at as usize]
    }

    pub fn links(&self, at: Place) -> &[Link] {
        &self.links[at as usize]
    }

    pub fn successor(&self, session: u32) -> u32 {
        let next = u64::from(session) + 1;
        (if next < self.modulus { next } else { next % self.modulus }) as u32
    }

    /// Where the link to another node stands among those of a node, or where it would stand.
    pub fn link_at(&self, at: Place, to: Place) -> Result<usize, usize> {
        self.links(at).binary_search_by_key(&to, |link| link.to)
    }

    pub fn leader(&mut self, at: Place) -> Place {
        let leaders = self
            .leaders
            .get_or_insert_with(|| ways(&self.links).into_iter().map(|way| way.0).collect());
        leaders[at as usize]
    }

    // The rows at a node, of which each event has some.

    pub fn may_claim(&self, at: Place, father: Option<&Node>) -> bool {
        let node = self.node(at);
        let itself = node.father == at;
        node.root < at
            || itself && (node.root != at || node.dist != 0)
            || !itself && father.is_none()
            || node.dist >= self.bound()
    }

    pub fn may_follow(&self, at: Place, father: Option<&Node>) -> bool {
        let node = self.node(at);
        father.is_some_and(|up| {
            node.dist < self.bound() && (node.root != up.root || node.dist != up.dist + 1)
        })
    }

    pub fn may_mend(&self, at: Place, father: Option<&Node>) -> bool {
        let node = self.node(at);
        father.is_some_and(|up| match (up.phase, node.phase) {
            (Phase::Reset, Phase::Reset) => node.session != up.session,
            (Phase::Reset, _) => {
                up.session != node.session && up.session != self.successor(node.session)
            }
            (_, Phase::Reset) => true,
            _ => node.session != up.session,
        })
    }

    pub fn may_join(&self, at: Place, father: Option<&Node>) -> bool {
        let node = self.node(at);
        father.is_some_and(|up| {
            up.phase == Phase::Reset
                && node.phase != Phase::Reset
                && up.session == self.successor(node.session)
        })
    }

    pub fn may_finish(&self, at: Place) -> bool {
        self.node(at).phase == Phase::Reset && self.counts[at as usize][AWAITS as usize] == 0
    }

    pub fn may_open(&self, at: Place) -> bool {
        let node = self.node(at);
        node.father == at && node.phase == Phase::Initiate
    }

    pub fn may_request(&self, at: Place) -> bool {
        self.node(at).phase == Phase::Normal
    }

    /// The father, where it is a neighbour.
    pub fn father(&self, at: Place) -> Option<&Node> {
        (self.counts[at as usize][FOLLOWS as usize] != 0).then(|| self.node(self.node(at).father))
    }

    /// Whether anything but a request is enabled at a node.
    pub fn is_ready(&self, at: Place) -> bool {
        let [adopts, asked, .., acts] = self.counts[at as usize];
        let father = self.father(at);
        adopts != 0
            || asked != 0 && self.may_request(at)
            || self.may_claim(at, father)
            || self.may_follow(at, father)
            || self.may_mend(at, father)
            || self.may_join(at, father)
            || self.may_finish(at)
            || self.may_open(at)
            || A::may_act(&self.locals[at as usize], acts, self.links(at).len())
    }

    /// The events that are enabled at a node, in the order in which they are drawn.
    pub fn list_events(&self, at: Place, events: &mut Vec<Event>) {
        let flagged =
            |flag: u32| self.links(at).iter().filter(move |link| link.flags >> flag & 1 == 1);
        let father = self.father(at);
        let [adopts, asked, .., acts] = self.counts[at as usize];
        events.clear();
        events.extend(self.may_claim(at, father).then_some(Event::Claim));
        events.extend(self.may_follow(at, father).then_some(Event::Follow));
        if adopts != 0 {
            events.extend(flagged(ADOPTS).map(|link| Event::Adopt(link.to)));
        }
        events.extend(self.may_mend(at, father).then_some(Event::Mend));
        events.extend(self.may_join(at, father).then_some(Event::Join));
        events.extend(self.may_finish(at).then_some(Event::Finish));
        events.extend(self.may_open(at).then_some(Event::Open));
        if self.may_request(at) {
            events.push(Event::Request);
            if asked != 0 {
                events.extend(flagged(ASKED).map(|link| Event::Relay(link.to)));
            }
        }
        if A::may_act(&self.locals[at as usize], acts, self.links(at).len()) {
            A::list_actions(&self.locals[at as usize], self.links(at), events);
        }
    }

    // What is kept of links and nodes.

    /// What a node may do over its link to another one.
    pub fn flags(&self, at: Place, to: Place) -> Flags {
        let (node, near) = (self.node(at), self.node(to));
        let adopts = near.dist < self.bound()
            && (node.root < near.root || node.root == near.root && near.dist + 1 < node.dist);
        let child = near.father == at;
        let asked = child && near.phase == Phase::Initiate;
        let awaits = child && (near.phase == Phase::Reset || near.session != node.session);
        let one_session = near.session == node.session;
        let (own, theirs) = (&self.locals[at as usize], &self.locals[to as usize]);
        let acts = A::flag(self.bound(), (at, own), (to, theirs), one_session);
        Flags::from(adopts) << ADOPTS
            | Flags::from(asked) << ASKED
            | Flags::from(awaits) << AWAITS
            | Flags::from(node.father == to) << FOLLOWS
            | Flags::from(acts) << ACTS
    }

    /// Puts the flags of a link at one of its ends, and counts them. It tells whether they are others than before.
    pub fn put_flags(&mut self, at: Place, index: usize, flags: Flags) -> bool {
        let old = std::mem::replace(&mut self.links[at as usize][index].flags, flags);
        if old != flags {
            self.count(at, old, flags);
        }
        old != flags
    }

    /// Counts that a link of a node has these flags, which had those before.
    pub fn count(&mut self, at: Place, old: Flags, new: Flags) {
        for (flag, count) in self.counts[at as usize].iter_mut().enumerate() {
            *count = *count + u32::from(new >> flag & 1) - u32::from(old >> flag & 1);
        }
    }

    /// Sees to what is kept of a node that has changed, and of its neighbours.
    pub fn refresh(&mut self, at: Place) {
        for index in 0..self.links(at).len() {
            let to = self.links(at)[index].to;
            self.put_flags(at, index, self.flags(at, to));
            let back = self.link_at(to, at).expect("a link has two ends");
            if self.put_flags(to, back, self.flags(to, at)) || self.node(to).father == at {
                self.ready.put(to, self.is_ready(to));
            }
        }
        self.ready.put(at, self.is_ready(at));
    }

    // Events.

    /// Does an enabled event, and tells whether it completes a reset.
    pub fn happen(&mut self, at: Place, event: Event) -> bool {
        let mut node = *self.node(at);
        let father = *self.node(node.father);
        let mut completes = false;
        match event {
            Event::Claim => node = Node { root: at, father: at, dist: 0, ..node },
            Event::Follow => {
                node.root = father.root;
                node.dist = (father.dist + 1).min(self.bound());
            }
            Event::Adopt(from) => {
                let near = self.node(from);
                node = Node { root: near.root, father: from, dist: near.dist + 1, ..node };
            }
            Event::Mend => node = Node { phase: father.phase, session: father.session, ..node },
            Event::Request | Event::Relay(_) => node.phase = Phase::Initiate,
            Event::Join | Event::Open => {
                node = Node { phase: Phase::Reset, session: self.successor(node.session), ..node };
                let leader = if A::ASKS_LEADER { self.leader(at) } else { at };
                self.locals[at as usize] = A::start(at, leader);
            }
            Event::Finish => {
                node.phase = Phase::Normal;
                completes = node.father == at;
            }
            Event::Act(case) => A::act(&mut self.locals, at, case, at),
            Event::ActToward(case, with) => A::act(&mut self.locals, at, case, with),
        }
        self.nodes[at as usize] = node;
        self.refresh(at);
        completes
    }

    // Faults.

    pub fn link_up(&mut self, a: Place, b: Place) -> bool {
        if a == b || self.link_count == MAX_LINKS {
            return false;
        }
        let (Err(to), Err(back)) = (self.link_at(a, b), self.link_at(b, a)) else {
            return false;
        };
        self.links[a as usize].insert(to, Link { to: b, flags: 0 });
        self.links[b as usize].insert(back, Link { to: a, flags: 0 });
        self.put_flags(a, to, self.flags(a, b));
        self.put_flags(b, back, self.flags(b, a));
        self.link_count += 1;
        self.relinked(a, b);
        true
    }

    pub fn link_down(&mut self, a: Place, b: Place) -> bool {
        let (Ok(to), Ok(back)) = (self.link_at(a, b), self.link_at(b, a)) else {
            return false;
        };
        let gone = self.links[a as usize].remove(to);
        self.count(a, gone.flags, 0);
        let gone = self.links[b as usize].remove(back);
        self.count(b, gone.flags, 0);
        self.link_count -= 1;
        self.relinked(a, b);
        true
    }

    pub fn relinked(&mut self, a: Place, b: Place) {
        self.leaders = None;
        self.ready.put(a, self.is_ready(a));
        self.ready.put(b, self.is_ready(b));
    }
}
