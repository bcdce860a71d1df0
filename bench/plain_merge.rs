//! Merges two registers in plain Rust, without proofs, to compare times with: `rustc --edition 2021 -O -C target-cpu=native plain_merge.rs`, then
//! `plain_merge OUT ONE OTHER`.
//!
//! It reads both files, checks each text in one pass (brackets, keywords, numerals, quoted texts and UTF-8, as a canonical text has them),
//! joins the operations and the ranges by id, and writes the file of the join. It knows no values, no slots and no conflicts, keeps no
//! bookkeeping of retired entries, and neither locks nor syncs a file. docs/FORMATS.md has the layout of the files.
use std::fs;
use std::io::{BufWriter, Write};

type Id = [u8; 20];

enum Body<'a> {
    Enter(&'a str),
    Supersede(&'a [u8]),
    Retire(&'a [u8]),
}

struct Op<'a> {
    id: Id,
    note: &'a [u8],
    body: Body<'a>,
}

/// The counts that a replica's file has seen, as ranges, by replica.
type Seen = Vec<([u8; 16], Vec<(u32, u32)>)>;

struct Register<'a> {
    seen: Seen,
    ops: Vec<Op<'a>>,
}

struct Cursor<'a>(&'a [u8]);

impl<'a> Cursor<'a> {
    fn take(&mut self, count: usize) -> Option<&'a [u8]> {
        let (taken, rest) = (self.0.get(..count)?, &self.0[count..]);
        self.0 = rest;
        Some(taken)
    }

    fn byte(&mut self) -> Option<u8> {
        Some(self.take(1)?[0])
    }

    fn four(&mut self) -> Option<u32> {
        Some(u32::from_be_bytes(self.take(4)?.try_into().ok()?))
    }

    fn id(&mut self) -> Option<Id> {
        self.take(20)?.try_into().ok()
    }
}

/// Whether the text is `KEYWORD[argument,argument..]`, once, in one pass, without blanks.
fn is_tree(text: &str) -> bool {
    let bytes = text.as_bytes();
    let (mut at, mut depth, mut wants) = (0, 0usize, true);
    while at < bytes.len() {
        match bytes[at] {
            b'"' if wants => {
                loop {
                    at += 1 + match bytes[at + 1..].iter().position(|byte| *byte == b'"') {
                        Some(count) => count,
                        None => return false,
                    };
                    if bytes.get(at + 1) != Some(&b'"') {
                        break;
                    }
                    at += 1;
                }
                (at, wants) = (at + 1, false);
            }
            b'A'..=b'Z' | b'a'..=b'z' if wants => {
                while at < bytes.len() && (bytes[at].is_ascii_alphanumeric() || bytes[at] == b'_') {
                    at += 1;
                }
                wants = bytes.get(at) == Some(&b'[');
                if wants {
                    (at, depth) = (at + 1, depth + 1);
                }
            }
            b'0'..=b'9' | b'-' if wants => {
                at += 1;
                while at < bytes.len() && matches!(bytes[at], b'0'..=b'9' | b'.' | b'E' | b'-') {
                    at += 1;
                }
                wants = false;
            }
            b',' if !wants && depth > 0 => (at, wants) = (at + 1, true),
            b']' if !wants && depth > 0 => {
                (at, depth) = (at + 1, depth - 1);
                if depth == 0 {
                    return at == bytes.len();
                }
            }
            _ => return false,
        }
    }
    false
}

fn read_seen(cursor: &mut Cursor<'_>) -> Option<Seen> {
    let mut seen = Seen::new();
    for _ in 0..cursor.four()? {
        let replica = cursor.take(16)?.try_into().ok()?;
        let mut ranges = Vec::new();
        for _ in 0..cursor.four()? {
            ranges.push((cursor.four()?, cursor.four()?));
        }
        seen.push((replica, ranges));
    }
    Some(seen)
}

fn read_op<'a>(cursor: &mut Cursor<'a>) -> Option<Op<'a>> {
    let id = cursor.id()?;
    let kind = cursor.byte()?;
    let length = cursor.byte()?;
    let note = cursor.take(length as usize)?;
    let body = match kind {
        1 => {
            let length = cursor.four()?;
            let text = std::str::from_utf8(cursor.take(length as usize)?).ok()?;
            if !is_tree(text) {
                return None;
            }
            Body::Enter(text)
        }
        2 => Body::Supersede(cursor.take(40)?),
        3 => Body::Retire(cursor.take(20)?),
        _ => return None,
    };
    Some(Op { id, note, body })
}

fn read(bytes: &[u8]) -> Option<Register<'_>> {
    let mut cursor = Cursor(bytes.strip_prefix(b"CRSR\x02\x01")?);
    let seen = read_seen(&mut cursor)?;
    let count = cursor.four()?;
    let mut ops: Vec<Op<'_>> = Vec::with_capacity(count as usize);
    for _ in 0..count {
        let op = read_op(&mut cursor)?;
        if ops.last().is_some_and(|last| last.id >= op.id) {
            return None;
        }
        ops.push(op);
    }
    cursor.0.is_empty().then_some(Register { seen, ops })
}

/// The rows of both, ascending, each once.
fn join<'a>(one: Vec<Op<'a>>, other: Vec<Op<'a>>) -> Vec<Op<'a>> {
    let mut joined = Vec::with_capacity(one.len() + other.len());
    let (mut one, mut other) = (one.into_iter().peekable(), other.into_iter().peekable());
    while let (Some(a), Some(b)) = (one.peek(), other.peek()) {
        if a.id == b.id {
            other.next();
        } else if b.id < a.id {
            joined.extend(other.next());
            continue;
        }
        joined.extend(one.next());
    }
    joined.extend(one);
    joined.extend(other);
    joined
}

fn join_seen(one: Seen, other: Seen) -> Seen {
    let mut all: Vec<_> = one.into_iter().chain(other).collect();
    all.sort();
    let mut joined = Seen::new();
    for (replica, mut ranges) in all {
        match joined.last_mut() {
            Some((last, of_last)) if *last == replica => of_last.append(&mut ranges),
            _ => joined.push((replica, ranges)),
        }
    }
    for (_, ranges) in &mut joined {
        ranges.sort();
        let mut merged: Vec<(u32, u32)> = Vec::new();
        for &(low, high) in ranges.iter() {
            match merged.last_mut() {
                Some(last) if low <= last.1.saturating_add(1) => last.1 = last.1.max(high),
                _ => merged.push((low, high)),
            }
        }
        *ranges = merged;
    }
    joined
}

fn write(out: &mut impl Write, register: &Register<'_>) -> std::io::Result<()> {
    out.write_all(b"CRSR\x02\x01")?;
    out.write_all(&(register.seen.len() as u32).to_be_bytes())?;
    for (replica, ranges) in &register.seen {
        out.write_all(replica)?;
        out.write_all(&(ranges.len() as u32).to_be_bytes())?;
        for (low, high) in ranges {
            out.write_all(&low.to_be_bytes())?;
            out.write_all(&high.to_be_bytes())?;
        }
    }
    out.write_all(&(register.ops.len() as u32).to_be_bytes())?;
    for op in &register.ops {
        let kind = match op.body {
            Body::Enter(_) => 1,
            Body::Supersede(_) => 2,
            Body::Retire(_) => 3,
        };
        out.write_all(&op.id)?;
        out.write_all(&[kind, op.note.len() as u8])?;
        out.write_all(op.note)?;
        match op.body {
            Body::Enter(text) => {
                out.write_all(&(text.len() as u32).to_be_bytes())?;
                out.write_all(text.as_bytes())?;
            }
            Body::Supersede(ids) | Body::Retire(ids) => out.write_all(ids)?,
        }
    }
    out.flush()
}

fn main() {
    let paths: Vec<String> = std::env::args().skip(1).collect();
    let (one, other) = (fs::read(&paths[1]).unwrap(), fs::read(&paths[2]).unwrap());
    let (one, other) = (read(&one).expect("the first file"), read(&other).expect("the second file"));
    let joined = Register { seen: join_seen(one.seen, other.seen), ops: join(one.ops, other.ops) };
    let mut out = BufWriter::with_capacity(1 << 16, fs::File::create(&paths[0]).unwrap());
    write(&mut out, &joined).unwrap();
}
