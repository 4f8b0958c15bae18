//! MD5 after RFC 1321, section 3.

use std::sync::OnceLock;

pub type Digest = [u8; 16];

/// 3.4: "T[i] ... the integer part of 4294967296 times abs(sin(i)), where i is in radians".
fn table() -> &'static [u32; 64] {
    static TABLE: OnceLock<[u32; 64]> = OnceLock::new();
    TABLE.get_or_init(|| {
        std::array::from_fn(|i| (4_294_967_296.0 * ((i + 1) as f64).sin().abs()) as u32)
    })
}

/// The rotations of each round, four steps long.
const SHIFTS: [[u32; 4]; 4] = [[7, 12, 17, 22], [5, 9, 14, 20], [4, 11, 16, 23], [6, 10, 15, 21]];

/// 3.1 and 3.2: a bit 1, bits 0 up to 448 modulo 512, then the length in bits, low byte first.
fn padded(message: &[u8]) -> Vec<u8> {
    let mut bytes = message.to_vec();
    bytes.push(0x80);
    while bytes.len() % 64 != 56 {
        bytes.push(0);
    }
    bytes.extend((message.len() as u64).wrapping_mul(8).to_le_bytes());
    bytes
}

/// 3.4, one block of sixteen words.
fn block(state: [u32; 4], words: &[u32; 16]) -> [u32; 4] {
    let table = table();
    let [mut a, mut b, mut c, mut d] = state;
    for i in 0..64 {
        let (mixed, k) = match i / 16 {
            0 => ((b & c) | (!b & d), i),
            1 => ((b & d) | (c & !d), 5 * i + 1),
            2 => (b ^ c ^ d, 3 * i + 5),
            _ => (c ^ (b | !d), 7 * i),
        };
        let sum = a.wrapping_add(mixed).wrapping_add(words[k % 16]).wrapping_add(table[i]);
        let turned = b.wrapping_add(sum.rotate_left(SHIFTS[i / 16][i % 4]));
        (a, b, c, d) = (d, turned, b, c);
    }
    [
        state[0].wrapping_add(a),
        state[1].wrapping_add(b),
        state[2].wrapping_add(c),
        state[3].wrapping_add(d),
    ]
}

/// The digest of a message: A, B, C, D, each low byte first.
pub fn md5(message: &[u8]) -> Digest {
    let mut state = [0x6745_2301, 0xefcd_ab89, 0x98ba_dcfe, 0x1032_5476];
    for bytes in padded(message).chunks_exact(64) {
        let words = std::array::from_fn(|i| {
            u32::from_le_bytes([bytes[4 * i], bytes[4 * i + 1], bytes[4 * i + 2], bytes[4 * i + 3]])
        });
        state = block(state, &words);
    }
    let mut digest = [0; 16];
    for (i, word) in state.iter().enumerate() {
        digest[4 * i..4 * i + 4].copy_from_slice(&word.to_le_bytes());
    }
    digest
}
