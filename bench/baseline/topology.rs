//! Reading a topology's text.

use crate::MAX_TEXT;
use crate::network::App;

/// The modulus of the sessions where a topology names none, and the greatest there is.
pub const SESSIONS: u64 = 1 << 32;

/// What is left of a topology text.
struct Cursor<'t> {
    rest: &'t [u8],
}

impl<'t> Cursor<'t> {
    /// Takes the byte if it comes next.
    fn take(&mut self, byte: u8) -> Option<()> {
        self.rest = self.rest.trim_ascii_start().strip_prefix(&[byte])?;
        Some(())
    }

    /// The longest run of bytes that pass.
    fn run(&mut self, passes: fn(&u8) -> bool) -> &'t [u8] {
        let text = self.rest.trim_ascii_start();
        let end = text.iter().position(|byte| !passes(byte)).unwrap_or(text.len());
        let (run, rest) = text.split_at(end);
        self.rest = rest;
        run
    }

    fn number(&mut self) -> Option<u32> {
        number(self.run(u8::is_ascii_digit))
    }

    fn modulus(&mut self) -> Option<u64> {
        modulus(self.run(u8::is_ascii_digit))
    }

    fn pair(&mut self) -> Option<(u32, u32)> {
        self.take(b'[')?;
        let from = self.number()?;
        self.take(b',')?;
        let to = self.number()?;
        self.take(b']')?;
        Some((from, to))
    }

    /// The items of a list in brackets, each read by `item`.
    fn list<T>(&mut self, item: fn(&mut Self) -> Option<T>) -> Option<Vec<T>> {
        let mut items = Vec::new();
        self.take(b'[')?;
        while self.take(b']').is_none() {
            items.push(item(self)?);
            if self.take(b',').is_none() {
                self.take(b']')?;
                break;
            }
        }
        Some(items)
    }

    fn string(&mut self) -> Option<&'t [u8]> {
        self.take(b'"')?;
        let string = self.run(u8::is_ascii_alphabetic);
        self.take(b'"')?;
        Some(string)
    }
}

/// The application, the nodes, ascending, the links and the modulus of a topology text.
pub fn read_topology(text: &[u8]) -> Option<(App, Vec<u32>, Vec<(u32, u32)>, u64)> {
    if text.len() > MAX_TEXT {
        return None;
    }
    let mut text = Cursor { rest: text };
    let (mut nodes, mut links, mut app, mut modulus) = (None, None, None, None);
    while !text.rest.trim_ascii_start().is_empty() {
        let key = text.run(u8::is_ascii_alphabetic);
        text.take(b'=')?;
        match key {
            b"nodes" if nodes.is_none() => nodes = Some(text.list(Cursor::number)?),
            b"links" if links.is_none() => links = Some(text.list(Cursor::pair)?),
            b"app" if app.is_none() => app = Some(text.string()?),
            b"modulus" if modulus.is_none() => modulus = Some(text.modulus()?),
            _ => return None,
        }
    }
    let (mut nodes, links) = (nodes?, links?);
    nodes.sort_unstable();
    let app = match app? {
        b"idle" => App::Idle,
        b"mutex" => App::Mutex,
        _ => return None,
    };
    Some((app, nodes, links, modulus.unwrap_or(SESSIONS)))
}

/// A modulus in decimals without leading zeros, from 2 on.
pub fn modulus(word: &[u8]) -> Option<u64> {
    match word {
        b"4294967296" => Some(SESSIONS),
        word => number(word).map(u64::from).filter(|modulus| *modulus >= 2),
    }
}

/// A decimal number without leading zeros.
pub fn number(word: &[u8]) -> Option<u32> {
    match word {
        [] | [b'0', _, ..] => None,
        digits => digits.iter().try_fold(0u32, |number, byte| {
            let digit = byte.wrapping_sub(b'0');
            if digit > 9 {
                return None;
            }
            number.checked_mul(10)?.checked_add(u32::from(digit))
        }),
    }
}
