//! The reply slice, as docs lay it out.

use model::{Answer, Etag};
pub use rathnodi::REPLY_LEN;

/// What a call that answers so writes in its reply.
pub fn bytes_of(answer: &Answer) -> [u8; REPLY_LEN] {
    let mut reply = [0; REPLY_LEN];
    let mut set = |at: usize, bytes: &[u8]| reply[at..at + bytes.len()].copy_from_slice(bytes);
    let etag = match answer {
        Answer::Metadata { length, created, etag, pairs, pairs_bytes } => {
            set(0, &created.to_le_bytes());
            set(8, &length.to_le_bytes());
            set(44, &pairs.to_le_bytes());
            set(46, &pairs_bytes.to_le_bytes());
            *etag
        }
        Answer::Etag(etag) => *etag,
        Answer::Upload(number) => {
            set(12, &number.to_le_bytes());
            Etag::Absent
        }
        Answer::Written { records, bytes } => {
            set(16, &records.to_le_bytes());
            set(20, &bytes.to_le_bytes());
            Etag::Absent
        }
        Answer::Swept { count, more } => {
            set(16, &count.to_le_bytes());
            set(25, &[u8::from(*more)]);
            Etag::Absent
        }
        Answer::Nothing => Etag::Absent,
    };
    match etag {
        Etag::Absent => (),
        Etag::Plain(digest) => {
            set(24, &[1]);
            set(28, &digest);
        }
        Etag::Joined(digest, count) => {
            set(24, &[2]);
            set(26, &count.to_le_bytes());
            set(28, &digest);
        }
    }
    reply
}

/// A number of the reply, low byte first.
pub fn number(reply: &[u8], at: usize, width: usize) -> u64 {
    reply[at..at + width].iter().rev().fold(0, |number, byte| number << 8 | u64::from(*byte))
}

/// The etag of a reply.
pub fn etag(reply: &[u8]) -> Etag {
    let digest = reply[28..44].try_into().expect("16 bytes");
    match reply[24] {
        0 => Etag::Absent,
        1 => Etag::Plain(digest),
        _ => Etag::Joined(digest, number(reply, 26, 2) as u16),
    }
}
