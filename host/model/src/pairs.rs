//! Document 02's pairs of key and value.

use crate::{LONGEST_KEY, LONGEST_VALUE, MOST_PAIRS};
use std::collections::BTreeMap;

/// What an object or an upload keeps: values by key.
pub type Pairs = BTreeMap<Vec<u8>, Vec<u8>>;

/// "The keys size, created and etag are dropped silently".
pub const SYSTEM_KEYS: [&[u8]; 3] = [b"size", b"created", b"etag"];

/// "A key is 1 to 32 bytes of lower-case letters, digits and hyphen; a value is 0 to 64 bytes from
/// 32 to 126."
pub fn pair_ok(key: &[u8], value: &[u8]) -> bool {
    (1..=LONGEST_KEY).contains(&key.len())
        && key.iter().all(|byte| matches!(byte, b'a'..=b'z' | b'0'..=b'9' | b'-'))
        && value.len() <= LONGEST_VALUE
        && value.iter().all(|byte| (32..=126).contains(byte))
}

/// A length of one byte and as many bytes, taken from the front; none where they are cut off.
fn take_counted<'a>(bytes: &mut &'a [u8]) -> Option<&'a [u8]> {
    let (length, rest) = bytes.split_first()?;
    let (taken, rest) = rest.split_at_checked(usize::from(*length))?;
    *bytes = rest;
    Some(taken)
}

/// The pairs as they came, each as key length, key, value length, value; none where the last is cut
/// off.
pub(crate) fn listed(mut bytes: &[u8]) -> Option<Vec<(&[u8], &[u8])>> {
    let mut pairs = Vec::new();
    while !bytes.is_empty() {
        pairs.push((take_counted(&mut bytes)?, take_counted(&mut bytes)?));
    }
    Some(pairs)
}

/// What is kept of a request's pairs; none where they are a bad request. Each pair's form is judged,
/// then the system keys are dropped, then the rest is counted and compared.
pub(crate) fn kept(bytes: &[u8]) -> Option<Pairs> {
    let mut pairs = listed(bytes)?;
    if !pairs.iter().all(|(key, value)| pair_ok(key, value)) {
        return None;
    }
    pairs.retain(|(key, _)| !SYSTEM_KEYS.contains(key));
    let by_key: Pairs = pairs.iter().map(|(key, value)| (key.to_vec(), value.to_vec())).collect();
    (pairs.len() <= MOST_PAIRS && by_key.len() == pairs.len()).then_some(by_key)
}

/// "Key and value bytes count as held."
pub fn bytes_held(pairs: &Pairs) -> usize {
    pairs.iter().map(|(key, value)| key.len() + value.len()).sum()
}

/// The pairs as GET and HEAD write them, ascending by key.
pub fn pair_bytes(pairs: &Pairs) -> Vec<u8> {
    let counted = |bytes: &[u8]| [&[bytes.len() as u8], bytes].concat();
    pairs.iter().flat_map(|(key, value)| [counted(key), counted(value)].concat()).collect()
}
