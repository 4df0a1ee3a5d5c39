//! The steps of the tables as values, which a script's lines are read as and a history keeps.

use crate::network::Network;
use crate::tables::Answer;

/// A step of the tree or of the wave. Its first number is the node that takes it.
#[derive(Clone, Copy)]
pub enum Event {
    Claim(u32),
    Follow(u32),
    Adopt(u32, u32),
    Request(u32),
    Relay(u32, u32),
    Open(u32),
    Join(u32),
    Finish(u32),
    Mend(u32),
}

/// The event whose line a text begins with, and what follows its line feed: read where it stands, without a search for
/// the end of the line. The commands of a wave come first.
pub fn split_event(text: &[u8]) -> Option<(Event, &[u8])> {
    if let Some(rest) = text.strip_prefix(b"finish ") {
        return split_one(rest, Event::Finish);
    }
    if let Some(rest) = text.strip_prefix(b"relay ") {
        return split_two(rest, Event::Relay);
    }
    if let Some(rest) = text.strip_prefix(b"join ") {
        return split_one(rest, Event::Join);
    }
    if let Some(rest) = text.strip_prefix(b"request ") {
        return split_one(rest, Event::Request);
    }
    if let Some(rest) = text.strip_prefix(b"open ") {
        return split_one(rest, Event::Open);
    }
    if let Some(rest) = text.strip_prefix(b"adopt ") {
        return split_two(rest, Event::Adopt);
    }
    if let Some(rest) = text.strip_prefix(b"claim ") {
        return split_one(rest, Event::Claim);
    }
    if let Some(rest) = text.strip_prefix(b"follow ") {
        return split_one(rest, Event::Follow);
    }
    split_one(text.strip_prefix(b"mend ")?, Event::Mend)
}

fn split_one(text: &[u8], event: impl FnOnce(u32) -> Event) -> Option<(Event, &[u8])> {
    let (at, after) = split_number(text, b'\n')?;
    Some((event(at), after))
}

fn split_two(text: &[u8], event: impl FnOnce(u32, u32) -> Event) -> Option<(Event, &[u8])> {
    let (at, rest) = split_number(text, b' ')?;
    let (other, after) = split_number(rest, b'\n')?;
    Some((event(at, other), after))
}

/// The number that a text begins with, as a word that this byte ends, and what follows the byte.
fn split_number(text: &[u8], end: u8) -> Option<(u32, &[u8])> {
    let (first, mut rest) = split_digit(text)?;
    let mut value = first;
    if first != 0 {
        while let Some((digit, after)) = split_digit(rest) {
            value = value.checked_mul(10)?.checked_add(digit)?;
            rest = after;
        }
    }
    let (byte, after) = rest.split_first()?;
    (*byte == end).then_some((value, after))
}

/// The digit that a text begins with, and what follows it.
fn split_digit(text: &[u8]) -> Option<(u32, &[u8])> {
    let (byte, after) = text.split_first()?;
    let digit = byte.wrapping_sub(b'0');
    (digit < 10).then(|| (u32::from(digit), after))
}

/// The event of a command with its numbers.
pub fn read_event(command: &[u8], at: u32, other: Option<u32>) -> Option<Event> {
    Some(match (command, other) {
        (b"claim", None) => Event::Claim(at),
        (b"follow", None) => Event::Follow(at),
        (b"adopt", Some(from)) => Event::Adopt(at, from),
        (b"request", None) => Event::Request(at),
        (b"relay", Some(child)) => Event::Relay(at, child),
        (b"open", None) => Event::Open(at),
        (b"join", None) => Event::Join(at),
        (b"finish", None) => Event::Finish(at),
        (b"mend", None) => Event::Mend(at),
        _ => return None,
    })
}

impl Network {
    pub fn step(&mut self, event: Event) -> Answer {
        match event {
            Event::Claim(at) => self.claim(at),
            Event::Follow(at) => self.follow(at),
            Event::Adopt(at, from) => self.adopt(at, from),
            Event::Request(at) => self.request(at),
            Event::Relay(at, child) => self.relay(at, child),
            Event::Open(at) => self.open(at),
            Event::Join(at) => self.join(at),
            Event::Finish(at) => self.finish(at),
            Event::Mend(at) => self.mend(at),
        }
    }
}
