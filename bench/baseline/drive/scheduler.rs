//! The scheduler.

use crate::apps::App;
use crate::history::History;
use crate::network::{Event, Network, Node, Phase, Place};
use crate::random::Pcg32;
use std::io::{self, Write};

pub struct Plan {
    pub steps: u32,
    pub seed: u32,
    /// In a thousand steps.
    pub faults: u32,
}

pub fn drive<A: App>(
    mut network: Network<A>,
    plan: Plan,
    mut history: History,
) -> io::Result<History> {
    let mut random = Pcg32::seed_from_u64(u64::from(plan.seed));
    let mut events = Vec::new();
    writeln!(history.lines, "reset-history 3 {}", network.modulus)?;
    for _ in 0..plan.steps {
        if random.next_word() % 1000 < plan.faults {
            disturb(&mut network, &mut random, &mut history)?;
        } else {
            step(&mut network, &mut random, &mut events, &mut history)?;
        }
    }
    history.lines.flush()?;
    Ok(history)
}

/// Draws an event, and does it, if any is enabled at the node that is drawn.
pub fn step<A: App>(
    network: &mut Network<A>,
    random: &mut Pcg32,
    events: &mut Vec<Event>,
    history: &mut History,
) -> io::Result<()> {
    let (for_node, for_event) = (random.next_word(), random.next_word());
    let at = match network.ready.count {
        0 => for_node % network.bound(),
        count => network.ready.nth(for_node % count),
    };
    network.list_events(at, events);
    if events.is_empty() {
        return Ok(());
    }
    let event = events[for_event as usize % events.len()];
    let completes = network.happen(at, event);
    history.reports += u32::from(completes);
    history.put_event(&network.ids, at, event)
}

/// Draws a fault, and does it, if it isn't refused.
pub fn disturb<A: App>(
    network: &mut Network<A>,
    random: &mut Pcg32,
    history: &mut History,
) -> io::Result<()> {
    let [kind, at, third, fourth, fifth] = [(); 5].map(|()| random.next_word());
    let count = network.bound();
    let (at, other) = (at % count, third % count);
    let id = |place: Place| network.ids[place as usize];
    let (own_id, other_id) = (id(at), id(other));
    match kind % 4 {
        0 => {
            let (father, dist) = (fourth % count, fifth % (count + 1));
            history.put(b"fault tree ", &[own_id, other_id, id(father), dist])?;
            let node = &mut network.nodes[at as usize];
            *node = Node { root: other, father, dist, ..*node };
            network.refresh(at);
        }
        1 => {
            let (phase, front) = [
                (Phase::Normal, " normal "),
                (Phase::Initiate, " initiate "),
                (Phase::Reset, " reset "),
            ][third as usize % 3];
            let session = fourth % 8;
            history.put_wave(own_id, front, session)?;
            let node = &mut network.nodes[at as usize];
            *node = Node { phase, session, ..*node };
            network.refresh(at);
        }
        2 => {
            if network.link_down(at, other) {
                history.put(b"fault down ", &[own_id, other_id])?;
            }
        }
        _ => {
            if network.link_up(at, other) {
                history.put(b"fault up ", &[own_id, other_id])?;
            }
        }
    }
    Ok(())
}
