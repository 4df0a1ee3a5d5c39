//! The history.

use crate::network::{Event, Place};
use std::fs::File;
use std::io::{self, BufWriter, Write};

pub struct History {
    pub lines: BufWriter<File>,
    pub entries: u32,
    pub reports: u32,
}

impl History {
    pub fn put_event(&mut self, ids: &[u32], at: Place, event: Event) -> io::Result<()> {
        let id = |place: Place| ids[place as usize];
        let at = id(at);
        match event {
            Event::Claim => self.put(b"claim ", &[at]),
            Event::Follow => self.put(b"follow ", &[at]),
            Event::Adopt(from) => self.put(b"adopt ", &[at, id(from)]),
            Event::Mend => self.put(b"mend ", &[at]),
            Event::Join => self.put(b"join ", &[at]),
            Event::Finish => self.put(b"finish ", &[at]),
            Event::Open => self.put(b"open ", &[at]),
            Event::Request => self.put(b"request ", &[at]),
            Event::Relay(child) => self.put(b"relay ", &[at, id(child)]),
            Event::Act(case) => self.put(b"act ", &[at, u32::from(case)]),
            Event::ActToward(case, with) => self.put(b"act ", &[at, u32::from(case), id(with)]),
        }
    }

    /// Writes an entry: a command and its numbers.
    pub fn put(&mut self, command: &[u8], numbers: &[u32]) -> io::Result<()> {
        let mut line = Line { bytes: [0; 64], len: 0 };
        line.push(command);
        for (index, number) in numbers.iter().enumerate() {
            if index > 0 {
                line.push(b" ");
            }
            line.push_number(*number);
        }
        self.end(line)
    }

    pub fn put_wave(&mut self, at: u32, phase: &str, session: u32) -> io::Result<()> {
        let mut line = Line { bytes: [0; 64], len: 0 };
        line.push(b"fault wave ");
        line.push_number(at);
        line.push(phase.as_bytes());
        line.push_number(session);
        self.end(line)
    }

    pub fn end(&mut self, mut line: Line) -> io::Result<()> {
        line.push(b"\n");
        self.entries += 1;
        self.lines.write_all(&line.bytes[..line.len])
    }
}

/// A line that is put together: a command and four numbers at most have room.
pub struct Line {
    pub bytes: [u8; 64],
    pub len: usize,
}

impl Line {
    pub fn push(&mut self, text: &[u8]) {
        self.bytes[self.len..self.len + text.len()].copy_from_slice(text);
        self.len += text.len();
    }

    pub fn push_number(&mut self, number: u32) {
        let (mut digits, mut first, mut rest) = ([0; 10], 10, number);
        loop {
            first -= 1;
            digits[first] = b'0' + (rest % 10) as u8;
            rest /= 10;
            if rest == 0 {
                break;
            }
        }
        self.push(&digits[first..]);
    }
}
