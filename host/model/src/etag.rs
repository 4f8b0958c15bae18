//! "An etag is absent, plain, or joined with its count."

use crate::md5::{md5, Digest};

#[derive(Clone, Copy, Debug, PartialEq, Eq)]
pub enum Etag {
    Absent,
    Plain(Digest),
    Joined(Digest, u16),
}

impl Etag {
    /// The digest of the data.
    pub fn of_data(data: &[u8]) -> Etag {
        Etag::Plain(md5(data))
    }

    /// The digest of the parts' digests end to end, with the number of parts.
    pub fn of_parts(digests: &[Digest]) -> Etag {
        Etag::Joined(md5(&digests.concat()), digests.len() as u16)
    }

    /// 32 lower-case hexadecimal digits; a joined one adds "-" and the count; absent is no bytes.
    pub fn text(&self) -> String {
        let digits = |d: &Digest| d.iter().map(|b| format!("{b:02x}")).collect::<String>();
        match self {
            Etag::Absent => String::new(),
            Etag::Plain(digest) => digits(digest),
            Etag::Joined(digest, count) => format!("{}-{count}", digits(digest)),
        }
    }
}
