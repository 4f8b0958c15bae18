//! Lists of calls, with how each slice is lent.

use crate::guard::Side;
use crate::layout::{bytes_of, former_state_of, without_pairs, Bytes};
use crate::random::Random;
use crate::reply::REPLY_LEN;
use model::{Call, Entry, Model};
use rathnodi::{FORMER_TABLES_LEN, TABLES_LEN};
use std::fmt;

/// The lengths that a call is lent, which guard pages its slices touch, and whether it is made by a
/// line of a recording.
#[derive(Clone, Copy, PartialEq, Eq)]
pub struct Lending {
    pub tables: usize,
    pub arena: usize,
    pub reply: usize,
    pub sides: u8,
    pub by_line: bool,
}

impl Lending {
    /// All as the store wants it.
    pub fn right(arena: usize) -> Lending {
        Lending { tables: TABLES_LEN, arena, reply: REPLY_LEN, sides: 0, by_line: false }
    }

    /// The guard page of the call's i-th slice.
    pub fn side(&self, i: usize) -> Side {
        if self.sides >> i & 1 == 0 {
            Side::Back
        } else {
            Side::Front
        }
    }
}

/// Bits of a byte of the lent memory; the tables' bytes come first, then the arena's.
#[derive(Clone, Copy, Debug, PartialEq, Eq)]
pub struct Bit {
    pub byte: usize,
    pub mask: u8,
}

/// A former store in the place of the state so far: the state without its pairs, as former tables
/// and an arena of its own. Both get free bytes by `fill`, then other hands change bits, the former
/// tables' bytes first. Where it is carried over, the list goes on from there.
#[derive(Clone, PartialEq, Eq)]
pub struct CarryOver {
    pub lending: Lending,
    /// The length that is lent as the former tables.
    pub former: usize,
    pub fill: u64,
    pub bits: Vec<Bit>,
}

impl CarryOver {
    /// All as it should be.
    pub fn right(arena: usize, fill: u64) -> CarryOver {
        let (lending, former) = (Lending::right(arena), FORMER_TABLES_LEN);
        CarryOver { lending, former, fill, bits: Vec::new() }
    }

    /// The former tables and the arena that are lent where this is the state so far.
    pub fn memory(&self, state: &Model) -> (Vec<u8>, Vec<u8>) {
        let Bytes { mut tables, mut arena, .. } = bytes_of(&without_pairs(state));
        let mut random = Random::new(self.fill, 1);
        tables.extend(random.bytes(FORMER_TABLES_LEN - tables.len()));
        arena.extend(random.bytes(state.arena - arena.len()));
        flip(&mut tables, &mut arena, &self.bits);
        tables.resize(self.former, 0);
        arena.resize(self.lending.arena, 0);
        (tables, arena)
    }

    /// The state that these two are carried over to stand for; nothing where they are refused.
    pub fn carries(&self, former: &[u8], arena: &[u8]) -> Option<Model> {
        former_state_of(former, arena).filter(|_| self.lending.tables == TABLES_LEN)
    }
}

/// Changes bits of tables and arena.
pub fn flip(tables: &mut [u8], arena: &mut [u8], bits: &[Bit]) {
    for bit in bits {
        if let Some(byte) = tables.get_mut(bit.byte) {
            *byte ^= bit.mask;
        } else if let Some(byte) = arena.get_mut(bit.byte - tables.len()) {
            *byte ^= bit.mask;
        }
    }
}

/// Another number for a part of an open upload, between those of the parts beside it; else nothing.
pub fn renumber(state: &mut Model, upload: u32, part: u16, number: u16) {
    let Some(upload) = state.uploads.get_mut(&upload) else { return };
    let parts = &mut upload.parts;
    let below = parts.range(..part).next_back().map_or(0, |(part, _)| *part);
    let above = parts.range(part..).nth(1).map_or(u16::MAX, |(part, _)| *part);
    if below < number && number < above {
        if let Some(found) = parts.remove(&part) {
            parts.insert(number, found);
        }
    }
}

/// A line, with the answer buffers beforehand.
#[derive(Clone, PartialEq, Eq)]
pub struct Line {
    pub text: Vec<u8>,
    pub buffer: Vec<u8>,
    pub pairs_buffer: Vec<u8>,
}

/// What a line says: no form, one with a number or a pair too wide for its call, or a call.
pub enum Said {
    Nothing,
    Wide,
    Call(Call),
}

impl Line {
    /// The line of a call, where it has one. A buffer that the call has not gets some bytes.
    pub fn of(call: &Call) -> Option<Line> {
        let text = Entry::of(call)?.to_string().into_bytes();
        let other = || vec![0x9c; 9];
        let (buffer, pairs_buffer) = match call {
            Call::Get { buffer, pairs_buffer, .. } => (buffer.clone(), pairs_buffer.clone()),
            Call::Head { pairs_buffer, .. } => (other(), pairs_buffer.clone()),
            Call::List { buffer, .. } | Call::Uploads { buffer, .. } => (buffer.clone(), other()),
            _ => (other(), other()),
        };
        Some(Line { text, buffer, pairs_buffer })
    }

    pub fn said(&self) -> Said {
        match Entry::read(&self.text).map(|entry| entry.call(&self.buffer, &self.pairs_buffer)) {
            None => Said::Nothing,
            Some(None) => Said::Wide,
            Some(Some(call)) => Said::Call(call),
        }
    }
}

impl fmt::Display for Line {
    fn fmt(&self, f: &mut fmt::Formatter) -> fmt::Result {
        let (text, rooms) = (&self.text, (self.buffer.len(), self.pairs_buffer.len()));
        let shown = text[..text.len().min(300)].escape_ascii();
        write!(f, "line `{shown}` of {} bytes into {} and {}", text.len(), rooms.0, rooms.1)
    }
}

#[derive(Clone, PartialEq, Eq)]
pub enum Step {
    Call(Call, Lending),
    /// A line that says no call.
    Line(Line, Lending),
    Fresh(Lending),
    CarryOver(CarryOver),
    /// A part gets a number that PART took before E7, as an older store has it: see `renumber`.
    OlderPart {
        upload: u32,
        part: u16,
        number: u16,
    },
    /// Another hand changes bits of the memory.
    Flip(Vec<Bit>),
    /// Another hand writes random bytes over the tables from a place on.
    Scribble {
        from: usize,
        seed: u64,
    },
}

impl fmt::Display for Step {
    fn fmt(&self, f: &mut fmt::Formatter) -> fmt::Result {
        match self {
            Step::Call(call, _) => write!(f, "{call}"),
            Step::Line(line, _) => write!(f, "{line}"),
            Step::Fresh(_) => write!(f, "(fresh)"),
            Step::CarryOver(CarryOver { former, fill, bits, .. }) => {
                write!(f, "(carry-over) of {former} bytes, filled by {fill}, flipped: {bits:?}")
            }
            Step::OlderPart { upload, part, number } => {
                write!(f, "part {part} of upload {upload} is part {number} of an older store")
            }
            Step::Flip(bits) => write!(f, "flipped: {bits:?}"),
            Step::Scribble { from, seed } => {
                write!(f, "random tables from byte {from}, seed {seed}")
            }
        }
    }
}

impl Step {
    fn lending(&self) -> Option<&Lending> {
        match self {
            Step::Call(_, lending) | Step::Line(_, lending) | Step::Fresh(lending) => Some(lending),
            Step::CarryOver(CarryOver { lending, .. }) => Some(lending),
            Step::OlderPart { .. } | Step::Flip(_) | Step::Scribble { .. } => None,
        }
    }

    pub fn lending_mut(&mut self) -> Option<&mut Lending> {
        match self {
            Step::Call(_, lending) | Step::Line(_, lending) | Step::Fresh(lending) => Some(lending),
            Step::CarryOver(CarryOver { lending, .. }) => Some(lending),
            Step::OlderPart { .. } | Step::Flip(_) | Step::Scribble { .. } => None,
        }
    }
}

/// A list from FRESH over an arena of this length. `fill` is the seed of what the memory holds
/// before FRESH, `next` is N at the start.
#[derive(Clone, PartialEq, Eq)]
pub struct List {
    pub arena: usize,
    pub fill: u64,
    pub next: u64,
    pub sides: (Side, Side),
    pub steps: Vec<Step>,
}

impl fmt::Display for List {
    fn fmt(&self, f: &mut fmt::Formatter) -> fmt::Result {
        let (tables, arena) = self.sides;
        writeln!(
            f,
            "(fresh)  [arena {}, filled by {}, next upload {}, tables at {tables:?}, arena at {arena:?}]",
            self.arena, self.fill, self.next
        )?;
        for (i, step) in self.steps.iter().enumerate() {
            write!(f, "{:4}  {step}", i + 1)?;
            match step.lending() {
                Some(lending) if *lending != Lending::right(self.arena) => {
                    let Lending { tables, arena, reply, sides, by_line } = lending;
                    let lengths = format!("tables {tables}, arena {arena}, reply {reply}");
                    let line = if *by_line { ", by a line" } else { "" };
                    writeln!(f, "  [{lengths}, sides {sides}{line}]")?
                }
                _ => writeln!(f)?,
            }
        }
        Ok(())
    }
}
