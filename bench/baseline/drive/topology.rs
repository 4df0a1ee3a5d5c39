//! Reading a topology whose keys are in their simple form.

/// The modulus of the sessions where a topology names none.
const SESSIONS: u64 = 1 << 32;

pub struct Topology<'t> {
    pub app: &'t [u8],
    /// Ascending.
    pub ids: Vec<u32>,
    pub links: Vec<(u32, u32)>,
    pub modulus: u64,
}

/// What is left of a topology's text.
pub struct Cursor<'t>(&'t [u8]);

impl<'t> Cursor<'t> {
    /// Takes the byte if it comes next.
    pub fn take(&mut self, byte: u8) -> Option<()> {
        self.0 = self.0.trim_ascii_start().strip_prefix(&[byte])?;
        Some(())
    }

    /// The longest run of bytes that pass.
    pub fn run(&mut self, passes: fn(&u8) -> bool) -> &'t [u8] {
        let text = self.0.trim_ascii_start();
        let end = text.iter().position(|byte| !passes(byte)).unwrap_or(text.len());
        let (run, rest) = text.split_at(end);
        self.0 = rest;
        run
    }

    pub fn number(&mut self) -> Option<u64> {
        let digits = self.run(u8::is_ascii_digit);
        (!digits.is_empty() && digits.len() <= 10)
            .then(|| digits.iter().fold(0, |number, digit| number * 10 + u64::from(digit - b'0')))
    }

    pub fn id(&mut self) -> Option<u32> {
        self.number().filter(|id| (1..=65535).contains(id)).map(|id| id as u32)
    }

    pub fn pair(&mut self) -> Option<(u32, u32)> {
        self.take(b'[')?;
        let from = self.id()?;
        self.take(b',')?;
        let to = self.id()?;
        self.take(b']')?;
        Some((from, to))
    }

    /// The items of a list in brackets, each read by `item`.
    pub fn list<T>(&mut self, item: fn(&mut Self) -> Option<T>) -> Option<Vec<T>> {
        let mut items = Vec::new();
        self.take(b'[')?;
        while self.take(b']').is_none() {
            items.push(item(self)?);
            if self.take(b',').is_none() {
                self.take(b']')?;
                break;
            }
        }
        Some(items)
    }

    pub fn string(&mut self) -> Option<&'t [u8]> {
        self.take(b'"')?;
        let string = self.run(u8::is_ascii_alphabetic);
        self.take(b'"')?;
        Some(string)
    }
}

pub fn read_topology(text: &[u8]) -> Option<Topology<'_>> {
    let mut text = Cursor(text);
    let (mut ids, mut links, mut app, mut modulus) = (None, None, None, SESSIONS);
    while !text.0.trim_ascii_start().is_empty() {
        let key = text.run(u8::is_ascii_alphabetic);
        text.take(b'=')?;
        match key {
            b"nodes" => ids = Some(text.list(Cursor::id)?),
            b"links" => links = Some(text.list(Cursor::pair)?),
            b"app" => app = Some(text.string()?),
            b"modulus" => modulus = text.number()?,
            _ => return None,
        }
    }
    let mut ids = ids.filter(|ids| !ids.is_empty())?;
    ids.sort_unstable();
    Some(Topology { app: app?, ids, links: links?, modulus })
}
