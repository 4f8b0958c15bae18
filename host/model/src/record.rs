//! Document 02's record, from its words alone: "one bracket form a line".

use crate::call::Call;
use crate::pairs::listed;
use crate::store::{Model, Refusal};
use std::fmt;

/// "over 4,096 bytes before its line feed".
pub const LONGEST_LINE: usize = 4_096;
/// "an arena and answer buffers of 65,536 bytes each".
pub const REPLAY_ROOM: usize = 65_536;
/// "A line that isn't such a form ... prints 9".
pub const NOT_A_LINE: u32 = 9;

type Bytes = Vec<u8>;
type Pair = (Bytes, Bytes);

/// "one of the eleven verbs", with "01's arguments in 01's order"; "Pairs of E6 follow".
#[derive(Clone, Debug, PartialEq, Eq)]
pub enum Entry {
    Put { stamp: u64, path: Bytes, data: Bytes, pairs: Vec<Pair> },
    Get { path: Bytes },
    Head { path: Bytes },
    Delete { path: Bytes },
    Copy { stamp: u64, source: Bytes, destination: Bytes },
    List { prefix: Bytes, suffix: Bytes },
    Initiate { stamp: u64, path: Bytes, pairs: Vec<Pair> },
    Part { upload: u64, part: u64, data: Bytes },
    Commit { upload: u64, list: Vec<u64> },
    Abort { upload: u64 },
    Uploads { prefix: Bytes },
}

/// What is left of a line.
struct Rest<'a>(&'a [u8]);

impl Rest<'_> {
    /// This text comes next.
    fn text(&mut self, text: &str) -> Option<()> {
        self.0 = self.0.strip_prefix(text.as_bytes())?;
        Some(())
    }

    /// As many bytes as are of a kind.
    fn run(&mut self, of_kind: impl Fn(&u8) -> bool) -> &str {
        let length = self.0.iter().position(|byte| !of_kind(byte)).unwrap_or(self.0.len());
        let (run, rest) = self.0.split_at(length);
        self.0 = rest;
        std::str::from_utf8(run).expect("ASCII")
    }

    /// "numbers in decimal below 2^64 without leading zeros (zero is one digit)".
    fn number(&mut self) -> Option<u64> {
        let digits = self.run(u8::is_ascii_digit);
        let leading_zero = digits.len() > 1 && digits.starts_with('0');
        digits.parse().ok().filter(|_| !leading_zero)
    }

    /// "lower-case hexadecimal digit pairs in double quotes".
    fn quoted(&mut self) -> Option<Bytes> {
        self.text("\"")?;
        let digits = self.run(|byte| matches!(byte, b'0'..=b'9' | b'a'..=b'f'));
        let byte = |at: usize| u8::from_str_radix(digits.get(at..at + 2)?, 16).ok();
        let bytes = (0..digits.len()).step_by(2).map(byte).collect();
        self.text("\"")?;
        bytes
    }

    /// "Fields are parted by one space."
    fn number_field(&mut self) -> Option<u64> {
        self.text(" ")?;
        self.number()
    }

    fn quoted_field(&mut self) -> Option<Bytes> {
        self.text(" ")?;
        self.quoted()
    }

    /// "a part list in its own brackets".
    fn list_field(&mut self) -> Option<Vec<u64>> {
        self.text(" (")?;
        let mut list = Vec::new();
        while self.text(")").is_none() {
            list.push(if list.is_empty() { self.number()? } else { self.number_field()? });
        }
        Some(list)
    }

    /// "each as a bracket of two quoted forms".
    fn pair_fields(&mut self) -> Option<Vec<Pair>> {
        let mut pairs = Vec::new();
        while self.text(" (").is_some() {
            pairs.push((self.quoted()?, self.quoted_field()?));
            self.text(")")?;
        }
        Some(pairs)
    }
}

impl Entry {
    /// What a line, without its line feed, says; none where it is no form or is too long.
    pub fn read(line: &[u8]) -> Option<Entry> {
        if line.len() > LONGEST_LINE {
            return None;
        }
        let mut rest = Rest(line);
        rest.text("(")?;
        let verb = rest.run(u8::is_ascii_lowercase).to_string();
        let entry = match verb.as_str() {
            "put" => {
                let (stamp, path) = (rest.number_field()?, rest.quoted_field()?);
                Entry::Put { stamp, path, data: rest.quoted_field()?, pairs: rest.pair_fields()? }
            }
            "get" => Entry::Get { path: rest.quoted_field()? },
            "head" => Entry::Head { path: rest.quoted_field()? },
            "delete" => Entry::Delete { path: rest.quoted_field()? },
            "copy" => {
                let (stamp, source) = (rest.number_field()?, rest.quoted_field()?);
                Entry::Copy { stamp, source, destination: rest.quoted_field()? }
            }
            "list" => Entry::List { prefix: rest.quoted_field()?, suffix: rest.quoted_field()? },
            "initiate" => {
                let (stamp, path) = (rest.number_field()?, rest.quoted_field()?);
                Entry::Initiate { stamp, path, pairs: rest.pair_fields()? }
            }
            "part" => {
                let (upload, part) = (rest.number_field()?, rest.number_field()?);
                Entry::Part { upload, part, data: rest.quoted_field()? }
            }
            "commit" => Entry::Commit { upload: rest.number_field()?, list: rest.list_field()? },
            "abort" => Entry::Abort { upload: rest.number_field()? },
            "uploads" => Entry::Uploads { prefix: rest.quoted_field()? },
            _ => return None,
        };
        rest.text(")")?;
        rest.0.is_empty().then_some(entry)
    }

    /// The call, with these buffers beforehand. None where a number is too wide for its argument, which
    /// "has result 2", or a key or a value is too long for C's form of pairs, which has that result too.
    pub fn call(&self, buffer: &[u8], pairs_buffer: &[u8]) -> Option<Call> {
        let (buffer, pairs_buffer) = (|| buffer.to_vec(), || pairs_buffer.to_vec());
        Some(match self.clone() {
            Entry::Put { stamp, path, data, pairs } => {
                Call::Put { stamp, path, data, pairs: counted(&pairs)? }
            }
            Entry::Get { path } => {
                Call::Get { path, buffer: buffer(), pairs_buffer: pairs_buffer() }
            }
            Entry::Head { path } => Call::Head { path, pairs_buffer: pairs_buffer() },
            Entry::Delete { path } => Call::Delete { path },
            Entry::Copy { stamp, source, destination } => Call::Copy { stamp, source, destination },
            Entry::List { prefix, suffix } => Call::List { prefix, suffix, buffer: buffer() },
            Entry::Initiate { stamp, path, pairs } => {
                Call::Initiate { stamp, path, pairs: counted(&pairs)? }
            }
            Entry::Part { upload, part, data } => {
                Call::Part { upload: upload.try_into().ok()?, part: part.try_into().ok()?, data }
            }
            Entry::Commit { upload, list } => {
                let narrow: Option<Vec<u16>> = list.iter().map(|n| (*n).try_into().ok()).collect();
                let list = narrow?.iter().flat_map(|number| number.to_le_bytes()).collect();
                Call::Commit { upload: upload.try_into().ok()?, list }
            }
            Entry::Abort { upload } => Call::Abort { upload: upload.try_into().ok()? },
            Entry::Uploads { prefix } => Call::Uploads { prefix, buffer: buffer() },
        })
    }

    /// The entry of a call; none where the record has no verb for it, pairs that are cut off, or a
    /// part list with an odd byte.
    pub fn of(call: &Call) -> Option<Entry> {
        Some(match call.clone() {
            Call::Put { stamp, path, data, pairs } => {
                Entry::Put { stamp, path, data, pairs: owned(&pairs)? }
            }
            Call::Get { path, .. } => Entry::Get { path },
            Call::Head { path, .. } => Entry::Head { path },
            Call::Delete { path } => Entry::Delete { path },
            Call::Copy { stamp, source, destination } => Entry::Copy { stamp, source, destination },
            Call::List { prefix, suffix, .. } => Entry::List { prefix, suffix },
            Call::Initiate { stamp, path, pairs } => {
                Entry::Initiate { stamp, path, pairs: owned(&pairs)? }
            }
            Call::Part { upload, part, data } => {
                Entry::Part { upload: upload.into(), part: part.into(), data }
            }
            Call::Commit { upload, list } => {
                let numbers = list.chunks_exact(2);
                if !numbers.remainder().is_empty() {
                    return None;
                }
                let number = |pair: &[u8]| u16::from_le_bytes([pair[0], pair[1]]).into();
                Entry::Commit { upload: upload.into(), list: numbers.map(number).collect() }
            }
            Call::Abort { upload } => Entry::Abort { upload: upload.into() },
            Call::Uploads { prefix, .. } => Entry::Uploads { prefix },
            Call::Sweep { .. } | Call::DeleteObjects { .. } => return None,
        })
    }
}

/// Pairs in C's form; none where a length has no byte.
fn counted(pairs: &[Pair]) -> Option<Bytes> {
    let mut bytes = Vec::new();
    for text in pairs.iter().flat_map(|(key, value)| [key, value]) {
        bytes.push(text.len().try_into().ok()?);
        bytes.extend(text);
    }
    Some(bytes)
}

fn owned(pairs: &[u8]) -> Option<Vec<Pair>> {
    Some(listed(pairs)?.iter().map(|(key, value)| (key.to_vec(), value.to_vec())).collect())
}

fn quote(bytes: &[u8]) -> String {
    let digits: String = bytes.iter().map(|byte| format!("{byte:02x}")).collect();
    format!("\"{digits}\"")
}

fn pair_texts(pairs: &[Pair]) -> String {
    let text = |(key, value): &Pair| format!(" ({} {})", quote(key), quote(value));
    pairs.iter().map(text).collect()
}

/// The line, without its line feed.
impl fmt::Display for Entry {
    fn fmt(&self, f: &mut fmt::Formatter) -> fmt::Result {
        match self {
            Entry::Put { stamp, path, data, pairs } => {
                write!(f, "(put {stamp} {} {}{})", quote(path), quote(data), pair_texts(pairs))
            }
            Entry::Get { path } => write!(f, "(get {})", quote(path)),
            Entry::Head { path } => write!(f, "(head {})", quote(path)),
            Entry::Delete { path } => write!(f, "(delete {})", quote(path)),
            Entry::Copy { stamp, source, destination } => {
                write!(f, "(copy {stamp} {} {})", quote(source), quote(destination))
            }
            Entry::List { prefix, suffix } => {
                write!(f, "(list {} {})", quote(prefix), quote(suffix))
            }
            Entry::Initiate { stamp, path, pairs } => {
                write!(f, "(initiate {stamp} {}{})", quote(path), pair_texts(pairs))
            }
            Entry::Part { upload, part, data } => {
                write!(f, "(part {upload} {part} {})", quote(data))
            }
            Entry::Commit { upload, list } => {
                let numbers: Vec<String> = list.iter().map(u64::to_string).collect();
                write!(f, "(commit {upload} ({}))", numbers.join(" "))
            }
            Entry::Abort { upload } => write!(f, "(abort {upload})"),
            Entry::Uploads { prefix } => write!(f, "(uploads {})", quote(prefix)),
        }
    }
}

/// "A line feed closes a line, and so does the input's end if bytes follow the last line feed."
pub fn lines_of(input: &[u8]) -> Vec<&[u8]> {
    let mut lines: Vec<&[u8]> = input.split(|byte| *byte == b'\n').collect();
    lines.pop_if(|rest| rest.is_empty());
    lines
}

/// "over a fresh store, with an arena and answer buffers of 65,536 bytes each".
pub struct Replay {
    pub store: Model,
    buffer: Vec<u8>,
    pairs_buffer: Vec<u8>,
}

impl Replay {
    pub fn fresh() -> Replay {
        let buffer = vec![0; REPLAY_ROOM];
        Replay { store: Model::fresh(REPLAY_ROOM), buffer: buffer.clone(), pairs_buffer: buffer }
    }

    /// The result number of a line.
    pub fn line(&mut self, line: &[u8]) -> u32 {
        let Some(entry) = Entry::read(line) else { return NOT_A_LINE };
        match entry.call(&self.buffer, &self.pairs_buffer) {
            Some(call) => self.store.call(&call).number,
            None => Refusal::BadRequest as u32,
        }
    }
}

/// The result number of each line of an input.
pub fn replay(input: &[u8]) -> Vec<u32> {
    let mut replay = Replay::fresh();
    lines_of(input).into_iter().map(|line| replay.line(line)).collect()
}
