//! One thread a node around one mutex. What a node does is its whole turn, under the lock; a node that has nothing to do
//! waits on a condition variable of its own until a neighbour has changed, or until all who take turns wait.

use crate::choices::Entry;
use crate::event::Event;
use crate::network::Network;
use crate::tables::Reply;
use std::io::{self, Write};
use std::sync::{Condvar, Mutex, MutexGuard};
use std::thread;

const MAX_ENTRIES: usize = 1_000_000;

/// What lies under the lock.
struct Book {
    network: Network,
    entries: Vec<Entry>,
    reports: usize,
    /// How many nodes take turns, how many of them wait, and which.
    present: usize,
    waiting: usize,
    waits: Vec<bool>,
}

/// What the threads share.
struct Round {
    book: Mutex<Book>,
    wakeups: Vec<Condvar>,
    neighbours: Vec<Vec<usize>>,
}

/// Runs a thread for each node: the one with the least identifier asks for a reset, and then each takes so
/// many turns. Writes the history, and then how many nodes, entries and reports there are.
pub fn run_threads(
    network: Network,
    turns: u32,
    history: &mut impl Write,
    out: &mut impl Write,
) -> io::Result<()> {
    let round = Round::new(network);
    let count = round.wakeups.len();
    thread::scope(|scope| {
        for place in 0..count {
            let round = &round;
            scope.spawn(move || round.run_node(place, turns));
        }
    });
    let book = round.book.into_inner().unwrap();
    writeln!(history, "reset-history 3 {}", book.network.modulus)?;
    for entry in &book.entries {
        writeln!(history, "{entry}")?;
    }
    let (entries, reports) = (book.entries.len(), book.reports);
    writeln!(out, "threads {count} nodes {entries} entries {reports} reports")
}

impl Round {
    fn new(network: Network) -> Round {
        let count = network.nodes.len();
        let place_of = |id| network.nodes.binary_search_by_key(&id, |node| node.id).unwrap();
        let neighbours =
            network.nodes.iter().map(|node| network.neighbours(node).map(|near| place_of(near.id)).collect()).collect();
        let waits = vec![false; count];
        let book = Book { network, entries: Vec::new(), reports: 0, present: count, waiting: 0, waits };
        Round { book: Mutex::new(book), wakeups: (0..count).map(|_| Condvar::new()).collect(), neighbours }
    }

    fn run_node(&self, place: usize, turns: u32) {
        if place == 0 {
            let mut book = self.book.lock().unwrap();
            let asks = Entry::Step(Event::Request(book.network.nodes[0].id));
            if book.enter(asks) {
                self.wake_neighbours(book, place);
            }
        }
        for _ in 0..turns {
            if !self.take_turn(place) {
                break;
            }
        }
        self.leave(place);
    }

    /// Does the next entry of a node, which may have to be waited for; no, where none comes any more.
    fn take_turn(&self, place: usize) -> bool {
        let mut book = self.book.lock().unwrap();
        loop {
            if let Some(entry) = book.network.next_entry(&book.network.nodes[place]) {
                let entered = book.enter(entry);
                if entered {
                    self.wake_neighbours(book, place);
                }
                return entered;
            }
            book.waits[place] = true;
            book.waiting += 1;
            if book.waiting == book.present {
                self.wake_all(book);
                return false;
            }
            let sleeps = |book: &mut Book| book.waits[place] && book.waiting < book.present;
            book = self.wakeups[place].wait_while(book, sleeps).unwrap();
            if book.waits[place] {
                return false;
            }
        }
    }

    fn wake_neighbours(&self, mut book: MutexGuard<Book>, place: usize) {
        for &at in &self.neighbours[place] {
            book.stop_waiting(at);
        }
        drop(book);
        for &at in &self.neighbours[place] {
            self.wakeups[at].notify_one();
        }
    }

    fn wake_all(&self, book: MutexGuard<Book>) {
        drop(book);
        for wakeup in &self.wakeups {
            wakeup.notify_all();
        }
    }

    fn leave(&self, place: usize) {
        let mut book = self.book.lock().unwrap();
        book.stop_waiting(place);
        book.present -= 1;
        if book.waiting == book.present {
            self.wake_all(book);
        }
    }
}

impl Book {
    fn stop_waiting(&mut self, place: usize) {
        if self.waits[place] {
            self.waits[place] = false;
            self.waiting -= 1;
        }
    }

    /// Does an entry and keeps it, if it is allowed and there is room.
    fn enter(&mut self, entry: Entry) -> bool {
        if self.entries.len() == MAX_ENTRIES {
            return false;
        }
        let done = match entry {
            Entry::Step(event) => self.network.step(event),
            Entry::Enter(at) => self.network.put_inside(at, true),
            Entry::Leave(at) => self.network.put_inside(at, false),
        };
        let Ok(reply) = done else { return false };
        self.reports += usize::from(matches!(reply, Reply::Complete(_)));
        self.entries.push(entry);
        true
    }
}
