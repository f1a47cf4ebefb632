//! SHA-256 (FIPS 180-4), and the keys of tables that are made by it. The numbers in brackets are its sections.
//! A block of 64 bytes costs about 8,000 gas, and nothing if the compiler works it out.

use crate::Key;

/// The bytes of a digest.
pub const DIGEST_LENGTH: usize = 32;

/// The bytes of a block.
const BLOCK: usize = 64;
/// The bytes that say how long the message is, at the end of the last block [5.1.1].
const LENGTH_BYTES: usize = 8;
/// The byte after a message: a bit 1 and zeros [5.1.1].
const END_OF_MESSAGE: u8 = 0x80;

/// [4.2.2]
#[rustfmt::skip]
const ROUND_CONSTANTS: [u32; 64] = [
    0x428a2f98, 0x71374491, 0xb5c0fbcf, 0xe9b5dba5, 0x3956c25b, 0x59f111f1, 0x923f82a4, 0xab1c5ed5,
    0xd807aa98, 0x12835b01, 0x243185be, 0x550c7dc3, 0x72be5d74, 0x80deb1fe, 0x9bdc06a7, 0xc19bf174,
    0xe49b69c1, 0xefbe4786, 0x0fc19dc6, 0x240ca1cc, 0x2de92c6f, 0x4a7484aa, 0x5cb0a9dc, 0x76f988da,
    0x983e5152, 0xa831c66d, 0xb00327c8, 0xbf597fc7, 0xc6e00bf3, 0xd5a79147, 0x06ca6351, 0x14292967,
    0x27b70a85, 0x2e1b2138, 0x4d2c6dfc, 0x53380d13, 0x650a7354, 0x766a0abb, 0x81c2c92e, 0x92722c85,
    0xa2bfe8a1, 0xa81a664b, 0xc24b8b70, 0xc76c51a3, 0xd192e819, 0xd6990624, 0xf40e3585, 0x106aa070,
    0x19a4c116, 0x1e376c08, 0x2748774c, 0x34b0bcb5, 0x391c0cb3, 0x4ed8aa4a, 0x5b9cca4f, 0x682e6ff3,
    0x748f82ee, 0x78a5636f, 0x84c87814, 0x8cc70208, 0x90befffa, 0xa4506ceb, 0xbef9a3f7, 0xc67178f2,
];

/// [5.3.3]
#[rustfmt::skip]
const INITIAL_STATE: [u32; 8] = [
    0x6a09e667, 0xbb67ae85, 0x3c6ef372, 0xa54ff53a, 0x510e527f, 0x9b05688c, 0x1f83d9ab, 0x5be0cd19,
];

/// A key that no other tag has: the digest of the tag and then of the key, as `table_key` of `sdk/sha256.h`.
///
/// A tag is the name of a table; one that no other program uses begins with the program's own name. With a tag of
/// at most 23 bytes that is one block. Every table needs a tag: a key that comes from an input as it is may be
/// that of any, and a row of `tables!` whose bytes a stranger chose, too.
pub const fn table_key(tag: &str, key: &Key) -> Key {
    Key(digest_of(Message::Two(tag.as_bytes(), &key.0)))
}

/// The key of a row of several parts that is too long for [`tables!`](crate::tables): the digest of a 0, the tag, a 0, and then of
/// each part with its length before it, in 4 bytes. No other tag or parts have this key, and no key of [`table_key`] has a tag that
/// begins with a 0.
pub const fn table_key_of(tag: &str, parts: &[&[u8]]) -> Key {
    Key(digest_of(Message::Parts(tag.as_bytes(), parts)))
}

/// The digest of a message.
pub const fn sha256(message: &[u8]) -> [u8; DIGEST_LENGTH] {
    digest_of(Message::Two(message, &[]))
}

/// What a digest is made of.
#[derive(Clone, Copy)]
enum Message<'a> {
    /// One after the other.
    Two(&'a [u8], &'a [u8]),
    /// A tag between zeros, and parts with their lengths.
    Parts(&'a [u8], &'a [&'a [u8]]),
}

/// The bytes of the length before each part.
const PART_HEAD: usize = 4;

impl Message<'_> {
    const fn length(self) -> usize {
        match self {
            Message::Two(first, second) => first.len() + second.len(),
            Message::Parts(tag, parts) => {
                let mut length = tag.len() + 2;
                let mut at = 0;
                while at < parts.len() {
                    length += PART_HEAD + parts[at].len();
                    at += 1;
                }
                length
            }
        }
    }

    /// The byte at a place before the end.
    const fn byte(self, place: usize) -> u8 {
        match self {
            Message::Two(first, second) => {
                if place < first.len() {
                    first[place]
                } else {
                    second[place - first.len()]
                }
            }
            Message::Parts(tag, parts) => {
                if place == 0 || place == tag.len() + 1 {
                    return 0;
                }
                if place <= tag.len() {
                    return tag[place - 1];
                }
                let (mut left, mut at) = (place - tag.len() - 2, 0);
                while left >= PART_HEAD + parts[at].len() {
                    left -= PART_HEAD + parts[at].len();
                    at += 1;
                }
                if left < PART_HEAD {
                    (parts[at].len() >> (8 * left)) as u8
                } else {
                    parts[at][left - PART_HEAD]
                }
            }
        }
    }
}

const fn digest_of(message: Message) -> [u8; DIGEST_LENGTH] {
    let length = message.length();
    let blocks = (length + 1 + LENGTH_BYTES + BLOCK - 1) / BLOCK;
    let mut state = INITIAL_STATE;
    let mut number = 0;
    while number < blocks {
        let mut block = [0; BLOCK];
        let mut at = 0;
        while at < BLOCK {
            let place = number * BLOCK + at;
            // A byte of the padding without the length [5.1.1], or of the message.
            if place == length {
                block[at] = END_OF_MESSAGE;
            } else if place < length {
                block[at] = message.byte(place);
            }
            at += 1;
        }
        if number + 1 == blocks {
            block = with_length(block, length);
        }
        state = compress(state, &block);
        number += 1;
    }
    bytes_of(state)
}

/// The last block with the message's length in bits.
const fn with_length(mut block: [u8; BLOCK], length: usize) -> [u8; BLOCK] {
    let bits = (8 * length as u64).to_be_bytes();
    let mut place = 0;
    while place < LENGTH_BYTES {
        block[BLOCK - LENGTH_BYTES + place] = bits[place];
        place += 1;
    }
    block
}

/// [6.2.2, 1]
const fn schedule_of(block: &[u8; BLOCK]) -> [u32; 64] {
    let mut schedule = [0; 64];
    let mut t = 0;
    while t < 64 {
        schedule[t] = if t < 16 {
            let at = 4 * t;
            u32::from_be_bytes([block[at], block[at + 1], block[at + 2], block[at + 3]])
        } else {
            let (w2, w15) = (schedule[t - 2], schedule[t - 15]);
            let sigma0 = w15.rotate_right(7) ^ w15.rotate_right(18) ^ w15 >> 3;
            let sigma1 = w2.rotate_right(17) ^ w2.rotate_right(19) ^ w2 >> 10;
            sum(&[sigma1, schedule[t - 7], sigma0, schedule[t - 16]])
        };
        t += 1;
    }
    schedule
}

/// [6.2.2, 2 to 4]
const fn compress(state: [u32; 8], block: &[u8; BLOCK]) -> [u32; 8] {
    let schedule = schedule_of(block);
    let [mut a, mut b, mut c, mut d, mut e, mut f, mut g, mut h] = state;
    let mut t = 0;
    while t < 64 {
        let sum1 = e.rotate_right(6) ^ e.rotate_right(11) ^ e.rotate_right(25);
        let choice = (e & f) ^ (!e & g);
        let first = sum(&[h, sum1, choice, ROUND_CONSTANTS[t], schedule[t]]);
        let sum0 = a.rotate_right(2) ^ a.rotate_right(13) ^ a.rotate_right(22);
        let majority = (a & b) ^ (a & c) ^ (b & c);
        (h, g, f, e) = (g, f, e, sum(&[d, first]));
        (d, c, b, a) = (c, b, a, sum(&[first, sum0, majority]));
        t += 1;
    }
    let rounds = [a, b, c, d, e, f, g, h];
    let mut next = state;
    let mut at = 0;
    while at < 8 {
        next[at] = sum(&[state[at], rounds[at]]);
        at += 1;
    }
    next
}

/// The sum modulo 2^32.
const fn sum(words: &[u32]) -> u32 {
    let mut total: u32 = 0;
    let mut at = 0;
    while at < words.len() {
        total = total.wrapping_add(words[at]);
        at += 1;
    }
    total
}

const fn bytes_of(state: [u32; 8]) -> [u8; DIGEST_LENGTH] {
    let mut digest = [0; DIGEST_LENGTH];
    let mut at = 0;
    while at < DIGEST_LENGTH {
        digest[at] = state[at / 4].to_be_bytes()[at % 4];
        at += 1;
    }
    digest
}

// NIST's examples for FIPS 180-4, of one block and of two: the compiler works them out.
#[rustfmt::skip]
const _: () = {
    const fn has_digest(message: &[u8], words: [u32; 8]) -> bool {
        let (found, wanted) = (sha256(message), bytes_of(words));
        let mut at = 0;
        while at < DIGEST_LENGTH && found[at] == wanted[at] {
            at += 1;
        }
        at == DIGEST_LENGTH
    }
    assert!(has_digest(
        b"abc",
        [0xba7816bf, 0x8f01cfea, 0x414140de, 0x5dae2223, 0xb00361a3, 0x96177a9c, 0xb410ff61, 0xf20015ad],
    ));
    assert!(has_digest(
        b"abcdbcdecdefdefgefghfghighijhijkijkljklmklmnlmnomnopnopq",
        [0x248d6a61, 0xd20638b8, 0xe5c02693, 0x0c3e6039, 0xa33ce459, 0x64ff2167, 0xf6ecedd4, 0x19db06c1],
    ));
};
