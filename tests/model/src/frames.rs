//! Frames: reading a line and writing one.

use crate::rules::{Command, LIMIT};

pub const P1A: u8 = 1;
pub const FAST: u8 = 2;
pub const P1B: u8 = 3;
pub const PROPOSE: u8 = 4;
pub const P2A: u8 = 5;
pub const VERIFY: u8 = 6;
pub const P2B: u8 = 7;
pub const SUSPICION: u8 = 8;
pub const VIEWCHANGE: u8 = 9;
pub const LEADER: u8 = 10;

/// A frame's eighteen bytes before the commands.
#[derive(Clone, Debug, PartialEq, Eq)]
pub struct Fields {
    pub kind: u8,
    pub sender: u8,
    pub view: u32,
    pub ballot: u32,
    pub proven_ballot: u32,
    pub mask: u16,
    pub n: u8,
    pub m: u8,
}

impl Fields {
    /// A kind and its sender; everything else is 0.
    pub fn of(kind: u8, sender: u8) -> Fields {
        Fields { kind, sender, view: 0, ballot: 0, proven_ballot: 0, mask: 0, n: 0, m: 0 }
    }

    /// Which fields besides the sender the kind uses; None for no kind.
    pub fn used(kind: u8) -> Option<Used> {
        let none = Used::default();
        let used = match kind {
            P1A | FAST => Used { view: true, ballot: true, ..none },
            P1B => Used { ballot: true, proven_ballot: true, mask: true, n: true, m: true, ..none },
            PROPOSE => Used { ballot: true, n: true, ..none },
            P2A | VERIFY => Used { view: true, ballot: true, n: true, ..none },
            P2B => Used { ballot: true, mask: true, n: true, ..none },
            SUSPICION => Used { view: true, ..none },
            VIEWCHANGE | LEADER => Used { view: true, mask: true, ..none },
            _ => return None,
        };
        Some(used)
    }

    /// Are the fields that the kind doesn't use 0? No kind uses none.
    pub fn unused_are_zero(&self) -> bool {
        let used = Fields::used(self.kind).unwrap_or_default();
        (used.view || self.view == 0)
            && (used.ballot || self.ballot == 0)
            && (used.proven_ballot || self.proven_ballot == 0)
            && (used.mask || self.mask == 0)
            && (used.n || self.n == 0)
            && (used.m || self.m == 0)
    }
}

/// The table of the document: what a kind uses besides the sender.
#[derive(Clone, Copy, Default)]
pub struct Used {
    pub view: bool,
    pub ballot: bool,
    pub proven_ballot: bool,
    pub mask: bool,
    pub n: bool,
    pub m: bool,
}

/// A frame: its fields, its n commands and then its m commands.
#[derive(Clone, Debug, PartialEq, Eq)]
pub struct Frame {
    pub fields: Fields,
    pub first: Vec<Command>,
    pub second: Vec<Command>,
}

/// The value of a lower-case hex digit.
fn digit(c: u8) -> Option<u8> {
    match c {
        b'0'..=b'9' => Some(c - b'0'),
        b'a'..=b'f' => Some(c - b'a' + 10),
        _ => None,
    }
}

/// The bytes that a line stands for: lower-case hex digits, two a byte, and
/// one line feed at the end.
fn line_bytes(line: &[u8]) -> Option<Vec<u8>> {
    let (&last, digits) = line.split_last()?;
    if last != b'\n' || digits.len() % 2 != 0 {
        return None;
    }
    let mut bytes = Vec::with_capacity(digits.len() / 2);
    for pair in digits.chunks(2) {
        bytes.push(digit(pair[0])? * 16 + digit(pair[1])?);
    }
    Some(bytes)
}

/// The fields of at least eighteen bytes.
fn fields(b: &[u8]) -> Fields {
    let four = |at: usize| u32::from_be_bytes([b[at], b[at + 1], b[at + 2], b[at + 3]]);
    Fields {
        kind: b[0],
        sender: b[1],
        view: four(2),
        ballot: four(6),
        proven_ballot: four(10),
        mask: u16::from_be_bytes([b[14], b[15]]),
        n: b[16],
        m: b[17],
    }
}

/// The first eighteen bytes of a line of digits, whatever they say.
pub fn header(line: &[u8]) -> Option<Fields> {
    let b = line_bytes(line)?;
    if b.len() < 18 {
        None
    } else {
        Some(fields(&b))
    }
}

/// Reads a line as a frame of one of the kinds; None is FORM.
pub fn read(line: &[u8], kinds: &[u8]) -> Option<Frame> {
    let b = line_bytes(line)?;
    if b.len() < 18 {
        return None;
    }
    let fields = fields(&b);
    if !kinds.contains(&fields.kind) || !fields.unused_are_zero() {
        return None;
    }
    let n = usize::from(fields.n);
    let m = usize::from(fields.m);
    if n > LIMIT || m > LIMIT || b.len() != 18 + 8 * (n + m) {
        return None;
    }
    let mut first: Vec<Command> = Vec::with_capacity(n + m);
    for eight in b[18..].chunks(8) {
        let mut c = [0; 8];
        c.copy_from_slice(eight);
        first.push(u64::from_be_bytes(c));
    }
    let second = first.split_off(n);
    Some(Frame { fields, first, second })
}

/// The line of a frame, whether the fields suit the commands or not.
pub fn encode(f: &Fields, commands: &[Command]) -> Vec<u8> {
    let mut bytes = vec![f.kind, f.sender];
    bytes.extend(f.view.to_be_bytes());
    bytes.extend(f.ballot.to_be_bytes());
    bytes.extend(f.proven_ballot.to_be_bytes());
    bytes.extend(f.mask.to_be_bytes());
    bytes.extend([f.n, f.m]);
    for c in commands {
        bytes.extend(c.to_be_bytes());
    }
    let mut line = Vec::with_capacity(2 * bytes.len() + 1);
    for b in bytes {
        line.push(b"0123456789abcdef"[usize::from(b >> 4)]);
        line.push(b"0123456789abcdef"[usize::from(b & 15)]);
    }
    line.push(b'\n');
    line
}

/// The line of a frame with its first and its second commands, as many as
/// they are.
pub fn write(f: Fields, first: &[Command], second: &[Command]) -> Vec<u8> {
    let fields = Fields { n: first.len() as u8, m: second.len() as u8, ..f };
    encode(&fields, &[first, second].concat())
}

/// A site's SUSPICION of a view.
pub fn suspicion(own: u8, view: u32) -> Vec<u8> {
    let f = Fields { view, ..Fields::of(SUSPICION, own) };
    write(f, &[], &[])
}

/// Puts a line at the front of the output buffer; its length is what is sent.
pub fn send(line: Option<Vec<u8>>, out: &mut [u8]) -> usize {
    let line = line.unwrap_or_default();
    out[..line.len()].copy_from_slice(&line);
    line.len()
}
