//! The applications.

use crate::network::{ACTS, Event, Link, Place};

pub trait App {
    type Local;

    /// Whether start states hang on who leads a component.
    const ASKS_LEADER: bool = false;

    fn start(at: Place, leader: Place) -> Self::Local;

    /// What the application keeps of a link at one of its ends.
    fn flag(
        bound: u32,
        own: (Place, &Self::Local),
        other: (Place, &Self::Local),
        one_session: bool,
    ) -> bool;

    /// Whether some action is enabled, where so many of so many links have the flag.
    fn may_act(own: &Self::Local, flagged: u32, links: usize) -> bool;

    /// The enabled actions, of which there are some.
    fn list_actions(own: &Self::Local, links: &[Link], events: &mut Vec<Event>);

    fn act(locals: &mut [Self::Local], at: Place, case: u8, with: Place);
}

pub fn flagged(links: &[Link], case: u8) -> impl Iterator<Item = Event> {
    let acting = links.iter().filter(|link| link.flags >> ACTS & 1 == 1);
    acting.map(move |link| Event::ActToward(case, link.to))
}

pub struct Idle;

impl App for Idle {
    type Local = ();

    fn start(_at: Place, _leader: Place) {}

    fn flag(_bound: u32, _own: (Place, &()), _other: (Place, &()), _one_session: bool) -> bool {
        false
    }

    fn may_act(_own: &(), _flagged: u32, _links: usize) -> bool {
        false
    }

    fn list_actions(_own: &(), _links: &[Link], _events: &mut Vec<Event>) {}

    fn act(_locals: &mut [()], _at: Place, _case: u8, _with: Place) {}
}

/// Cases: 1 enter, 2 leave. The flag of a link: it keeps the node from entering.
pub struct Mutex;

pub struct MutexLocal {
    pub inside: bool,
    pub bit: bool,
}

impl App for Mutex {
    type Local = MutexLocal;

    fn start(_at: Place, _leader: Place) -> MutexLocal {
        MutexLocal { inside: false, bit: false }
    }

    fn flag(
        _bound: u32,
        own: (Place, &MutexLocal),
        other: (Place, &MutexLocal),
        one_session: bool,
    ) -> bool {
        let own_turn = (own.0 < other.0) == (own.1.bit == other.1.bit);
        !one_session || !own_turn
    }

    fn may_act(own: &MutexLocal, flagged: u32, _links: usize) -> bool {
        own.inside || flagged == 0
    }

    fn list_actions(own: &MutexLocal, _links: &[Link], events: &mut Vec<Event>) {
        events.push(Event::Act(if own.inside { 2 } else { 1 }));
    }

    fn act(locals: &mut [MutexLocal], at: Place, case: u8, _with: Place) {
        let own = &mut locals[at as usize];
        own.inside = case == 1;
        own.bit ^= case == 2;
    }
}

/// Cases: 1 pass, 2 take. The flag of a link: the token comes over it.
pub struct Token;

pub struct TokenLocal {
    pub hold: bool,
    /// The places whose bit is one, ascending.
    pub given: Vec<Place>,
    pub taken: Vec<Place>,
}

pub fn turn_over(bits: &mut Vec<Place>, place: Place) {
    match bits.binary_search(&place) {
        Ok(index) => {
            bits.remove(index);
        }
        Err(index) => bits.insert(index, place),
    }
}

impl App for Token {
    type Local = TokenLocal;

    const ASKS_LEADER: bool = true;

    fn start(at: Place, leader: Place) -> TokenLocal {
        TokenLocal { hold: at == leader, given: Vec::new(), taken: Vec::new() }
    }

    fn flag(
        _bound: u32,
        own: (Place, &TokenLocal),
        other: (Place, &TokenLocal),
        one_session: bool,
    ) -> bool {
        let given = other.1.given.binary_search(&own.0).is_ok();
        let taken = own.1.taken.binary_search(&other.0).is_ok();
        one_session && given != taken
    }

    fn may_act(own: &TokenLocal, flagged: u32, links: usize) -> bool {
        if own.hold { links != 0 } else { flagged != 0 }
    }

    fn list_actions(own: &TokenLocal, links: &[Link], events: &mut Vec<Event>) {
        if own.hold {
            events.extend(links.iter().map(|link| Event::ActToward(1, link.to)));
        } else {
            events.extend(flagged(links, 2));
        }
    }

    fn act(locals: &mut [TokenLocal], at: Place, case: u8, with: Place) {
        let own = &mut locals[at as usize];
        own.hold = case == 2;
        turn_over(if case == 1 { &mut own.given } else { &mut own.taken }, with);
    }
}

/// Case: 1 pull. The flag of a link: the other end has a better way.
pub struct Routes;

#[derive(Clone, Copy)]
pub struct Route {
    pub destination: Place,
    pub hops: u32,
}

impl App for Routes {
    /// By ascending destination. That a route leads over a neighbour no rule asks.
    type Local = Vec<Route>;

    fn start(at: Place, _leader: Place) -> Vec<Route> {
        vec![Route { destination: at, hops: 0 }]
    }

    fn flag(
        bound: u32,
        own: (Place, &Vec<Route>),
        other: (Place, &Vec<Route>),
        one_session: bool,
    ) -> bool {
        let mut rest = own.1.as_slice();
        one_session
            && other.1.iter().any(|theirs| {
                while let Some((first, behind)) = rest.split_first()
                    && first.destination < theirs.destination
                {
                    rest = behind;
                }
                let known = rest.first().filter(|first| first.destination == theirs.destination);
                theirs.hops + 1 < bound && known.is_none_or(|known| known.hops > theirs.hops + 1)
            })
    }

    fn may_act(_own: &Vec<Route>, flagged: u32, _links: usize) -> bool {
        flagged != 0
    }

    fn list_actions(_own: &Vec<Route>, links: &[Link], events: &mut Vec<Event>) {
        events.extend(flagged(links, 1));
    }

    fn act(locals: &mut [Vec<Route>], at: Place, _case: u8, with: Place) {
        let bound = locals.len() as u32;
        let mut own = std::mem::take(&mut locals[at as usize]);
        let better = locals[with as usize].iter().filter(|theirs| theirs.hops + 1 < bound);
        for theirs in better.map(|theirs| Route { hops: theirs.hops + 1, ..*theirs }) {
            match own.binary_search_by_key(&theirs.destination, |route| route.destination) {
                Ok(index) => own[index].hops = own[index].hops.min(theirs.hops),
                Err(index) => own.insert(index, theirs),
            }
        }
        locals[at as usize] = own;
    }
}
