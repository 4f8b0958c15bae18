//! A call with its arguments as values, and what is compared of its outcome.

use crate::etag::Etag;
use crate::pairs::listed;
use std::fmt;

/// One of the calls. `buffer` is the answer buffer, or that of DELETE_OBJECTS' results, and
/// `pairs_buffer` the second answer buffer, each with the bytes it holds beforehand; `list` is a
/// part list as 16-bit numbers, `places` are starts and lengths of names as 32-bit numbers, low byte
/// first; `pairs` has for each pair key length, key, value length, value.
#[derive(Clone, PartialEq, Eq)]
pub enum Call {
    Put { stamp: u64, path: Vec<u8>, data: Vec<u8>, pairs: Vec<u8> },
    Get { path: Vec<u8>, buffer: Vec<u8>, pairs_buffer: Vec<u8> },
    Head { path: Vec<u8>, pairs_buffer: Vec<u8> },
    Delete { path: Vec<u8> },
    DeleteObjects { names: Vec<u8>, places: Vec<u8>, buffer: Vec<u8> },
    Copy { stamp: u64, source: Vec<u8>, destination: Vec<u8> },
    List { prefix: Vec<u8>, suffix: Vec<u8>, buffer: Vec<u8> },
    Initiate { stamp: u64, path: Vec<u8>, pairs: Vec<u8> },
    Part { upload: u32, part: u16, data: Vec<u8> },
    Commit { upload: u32, list: Vec<u8> },
    Abort { upload: u32 },
    Sweep { stamp: u64, most: u32 },
    Uploads { prefix: Vec<u8>, buffer: Vec<u8> },
}

impl Call {
    /// The buffer beforehand; a call without written output has none.
    pub fn buffer(&self) -> &[u8] {
        match self {
            Call::Get { buffer, .. } | Call::List { buffer, .. } => buffer,
            Call::Uploads { buffer, .. } | Call::DeleteObjects { buffer, .. } => buffer,
            _ => &[],
        }
    }

    /// The second buffer beforehand; GET and HEAD have one.
    pub fn pairs_buffer(&self) -> &[u8] {
        match self {
            Call::Get { pairs_buffer, .. } | Call::Head { pairs_buffer, .. } => pairs_buffer,
            _ => &[],
        }
    }
}

/// Metadata, numbers and counts.
#[derive(Clone, Debug, PartialEq, Eq)]
pub enum Answer {
    Nothing,
    /// With how many pairs GET or HEAD wrote, and how many bytes.
    Metadata {
        length: u32,
        created: u64,
        etag: Etag,
        pairs: u16,
        pairs_bytes: u16,
    },
    Etag(Etag),
    Upload(u32),
    Written {
        records: u32,
        bytes: u32,
    },
    Swept {
        count: u32,
        more: bool,
    },
}

/// The result number, what is answered, and both buffers afterwards.
#[derive(Clone, Debug, PartialEq, Eq)]
pub struct Reply {
    pub number: u32,
    pub answer: Answer,
    pub buffer: Vec<u8>,
    pub pairs_buffer: Vec<u8>,
}

impl Reply {
    /// A refusal answers its number alone and leaves the buffers.
    pub fn refused(number: u32, call: &Call) -> Reply {
        let mut reply = Reply::accepted(Answer::Nothing, call, &[], &[]);
        reply.number = number;
        reply
    }

    /// These bytes at the front of each buffer.
    pub fn accepted(answer: Answer, call: &Call, bytes: &[u8], pairs: &[u8]) -> Reply {
        let over = |written: &[u8], before: &[u8]| [written, &before[written.len()..]].concat();
        let (buffer, pairs_buffer) = (over(bytes, call.buffer()), over(pairs, call.pairs_buffer()));
        Reply { number: 0, answer, buffer, pairs_buffer }
    }
}

struct Hex<'a>(&'a [u8]);

impl fmt::Display for Hex<'_> {
    fn fmt(&self, f: &mut fmt::Formatter) -> fmt::Result {
        write!(f, "\"")?;
        for (i, byte) in self.0.iter().enumerate() {
            if i == 160 {
                return write!(f, "..\" of {} bytes", self.0.len());
            }
            write!(f, "{byte:02x}")?;
        }
        write!(f, "\"")
    }
}

/// Places as start+length.
fn places_text(places: &[u8]) -> String {
    let number = |bytes: &[u8]| bytes.iter().rev().fold(0, |n, byte| n << 8 | u64::from(*byte));
    let text = |place: &[u8]| match place.len() {
        8 => format!("{}+{}", number(&place[..4]), number(&place[4..])),
        _ => format!("left over {place:?}"),
    };
    let mut texts: Vec<String> = places.chunks(8).take(40).map(text).collect();
    if places.len() > 320 {
        texts.push(format!(".. of {} bytes", places.len()));
    }
    texts.join(" ")
}

/// Each pair as a bracket of two quoted forms.
fn pairs_text(pairs: &[u8]) -> String {
    match listed(pairs) {
        Some(pairs) => {
            let text = |(key, value): &(&[u8], &[u8])| format!(" ({} {})", Hex(key), Hex(value));
            pairs.iter().map(text).collect()
        }
        None => format!(" malformed {}", Hex(pairs)),
    }
}

/// Numbers in decimal, bytes in hexadecimal, the buffers by their lengths.
impl fmt::Display for Call {
    fn fmt(&self, f: &mut fmt::Formatter) -> fmt::Result {
        match self {
            Call::Put { stamp, path, data, pairs } => {
                write!(f, "(put {stamp} {} {}{})", Hex(path), Hex(data), pairs_text(pairs))
            }
            Call::Get { path, buffer, pairs_buffer } => {
                let (room, pairs_room) = (buffer.len(), pairs_buffer.len());
                write!(f, "(get {}) into {room} and {pairs_room} bytes", Hex(path))
            }
            Call::Head { path, pairs_buffer } => {
                write!(f, "(head {}) into {} bytes", Hex(path), pairs_buffer.len())
            }
            Call::Delete { path } => write!(f, "(delete {})", Hex(path)),
            Call::DeleteObjects { names, places, buffer } => {
                let (names, places, room) = (Hex(names), places_text(places), buffer.len());
                write!(f, "(delete-objects {names} ({places})) into {room} bytes")
            }
            Call::Copy { stamp, source, destination } => {
                write!(f, "(copy {stamp} {} {})", Hex(source), Hex(destination))
            }
            Call::List { prefix, suffix, buffer } => {
                write!(f, "(list {} {}) into {} bytes", Hex(prefix), Hex(suffix), buffer.len())
            }
            Call::Initiate { stamp, path, pairs } => {
                write!(f, "(initiate {stamp} {}{})", Hex(path), pairs_text(pairs))
            }
            Call::Part { upload, part, data } => {
                write!(f, "(part {upload} {part} {})", Hex(data))
            }
            Call::Commit { upload, list } => {
                let numbers: Vec<String> = list
                    .chunks(2)
                    .map(|pair| match pair {
                        [low, high] => u16::from_le_bytes([*low, *high]).to_string(),
                        odd => format!("odd byte {}", odd[0]),
                    })
                    .collect();
                write!(f, "(commit {upload} ({}))", numbers.join(" "))
            }
            Call::Abort { upload } => write!(f, "(abort {upload})"),
            Call::Sweep { stamp, most } => write!(f, "(sweep {stamp} {most})"),
            Call::Uploads { prefix, buffer } => {
                write!(f, "(uploads {}) into {} bytes", Hex(prefix), buffer.len())
            }
        }
    }
}

impl fmt::Debug for Call {
    fn fmt(&self, f: &mut fmt::Formatter) -> fmt::Result {
        fmt::Display::fmt(self, f)
    }
}
