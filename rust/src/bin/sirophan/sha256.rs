//! SHA-256 (FIPS 180-4), by which an archive's files are told apart.

use std::fmt;

/// How many bytes are taken in at a time, and how many of the last of these say how many bits there were.
const BLOCK: usize = 64;
const LENGTH: usize = 8;

/// The first 32 bits of the fractions of the square roots of the first 8 primes.
const START: [u32; 8] =
    [0x6a09_e667, 0xbb67_ae85, 0x3c6e_f372, 0xa54f_f53a, 0x510e_527f, 0x9b05_688c, 0x1f83_d9ab, 0x5be0_cd19];

/// The first 32 bits of the fractions of the cube roots of the first 64 primes.
const ROUNDS: [u32; 64] = [
    0x428a_2f98,
    0x7137_4491,
    0xb5c0_fbcf,
    0xe9b5_dba5,
    0x3956_c25b,
    0x59f1_11f1,
    0x923f_82a4,
    0xab1c_5ed5,
    0xd807_aa98,
    0x1283_5b01,
    0x2431_85be,
    0x550c_7dc3,
    0x72be_5d74,
    0x80de_b1fe,
    0x9bdc_06a7,
    0xc19b_f174,
    0xe49b_69c1,
    0xefbe_4786,
    0x0fc1_9dc6,
    0x240c_a1cc,
    0x2de9_2c6f,
    0x4a74_84aa,
    0x5cb0_a9dc,
    0x76f9_88da,
    0x983e_5152,
    0xa831_c66d,
    0xb003_27c8,
    0xbf59_7fc7,
    0xc6e0_0bf3,
    0xd5a7_9147,
    0x06ca_6351,
    0x1429_2967,
    0x27b7_0a85,
    0x2e1b_2138,
    0x4d2c_6dfc,
    0x5338_0d13,
    0x650a_7354,
    0x766a_0abb,
    0x81c2_c92e,
    0x9272_2c85,
    0xa2bf_e8a1,
    0xa81a_664b,
    0xc24b_8b70,
    0xc76c_51a3,
    0xd192_e819,
    0xd699_0624,
    0xf40e_3585,
    0x106a_a070,
    0x19a4_c116,
    0x1e37_6c08,
    0x2748_774c,
    0x34b0_bcb5,
    0x391c_0cb3,
    0x4ed8_aa4a,
    0x5b9c_ca4f,
    0x682e_6ff3,
    0x748f_82ee,
    0x78a5_636f,
    0x84c8_7814,
    0x8cc7_0208,
    0x90be_fffa,
    0xa450_6ceb,
    0xbef9_a3f7,
    0xc671_78f2,
];

/// What SHA-256 makes of bytes. It is shown in hexadecimal.
#[derive(Clone, Copy, Debug, PartialEq, Eq)]
pub struct Hash([u32; 8]);

impl Hash {
    /// The hash of bytes.
    pub fn of(bytes: &[u8]) -> Hash {
        let mut hasher = Hasher::new();
        hasher.add(bytes);
        hasher.end()
    }
}

impl fmt::Display for Hash {
    fn fmt(&self, to: &mut fmt::Formatter) -> fmt::Result {
        self.0.iter().try_for_each(|word| write!(to, "{word:08x}"))
    }
}

/// Takes in bytes piece by piece.
#[derive(Clone)]
pub struct Hasher {
    state: [u32; 8],
    /// The bytes behind the last whole block, and how many bytes there were in all.
    rest: Vec<u8>,
    count: u64,
}

impl Hasher {
    pub fn new() -> Hasher {
        Hasher { state: START, rest: Vec::new(), count: 0 }
    }

    /// Takes in more bytes.
    pub fn add(&mut self, bytes: &[u8]) {
        self.count += bytes.len() as u64;
        let (filling, bytes) = bytes.split_at(bytes.len().min((BLOCK - self.rest.len()) % BLOCK));
        self.rest.extend(filling);
        if self.rest.len() == BLOCK {
            mix(&mut self.state, &self.rest);
            self.rest.clear();
        }
        let (blocks, rest) = bytes.split_at(bytes.len() - bytes.len() % BLOCK);
        mix(&mut self.state, blocks);
        self.rest.extend(rest);
    }

    /// The hash of all bytes: behind them come a 1 bit, zeros, and how many bits there were.
    pub fn end(mut self) -> Hash {
        let bits = self.count * 8;
        let zeros = (2 * BLOCK - LENGTH - 1 - self.rest.len()) % BLOCK;
        self.add(&[&[0x80][..], &vec![0; zeros], &bits.to_be_bytes()].concat());
        Hash(self.state)
    }
}

/// Mixes whole blocks into the state, by the processor's own instructions where it has them.
fn mix(state: &mut [u32; 8], blocks: &[u8]) {
    #[cfg(target_arch = "x86_64")]
    if is_x86_feature_detected!("sha") && is_x86_feature_detected!("sse4.1") {
        // SAFETY: it asks for nothing but these instructions, and they are there.
        unsafe { by_instructions::mix(state, blocks) };
        return;
    }
    blocks.chunks_exact(BLOCK).for_each(|block| mix_block(state, block));
}

/// Mixes a block into the state.
fn mix_block(state: &mut [u32; 8], block: &[u8]) {
    let mut words = [0_u32; 64];
    for (word, bytes) in words.iter_mut().zip(block.chunks_exact(4)) {
        *word = bytes.iter().fold(0, |word, byte| word << 8 | u32::from(*byte));
    }
    for at in 16..words.len() {
        let [near, far] = [words[at - 15], words[at - 2]];
        let near = near.rotate_right(7) ^ near.rotate_right(18) ^ near >> 3;
        let far = far.rotate_right(17) ^ far.rotate_right(19) ^ far >> 10;
        words[at] = words[at - 16].wrapping_add(near).wrapping_add(words[at - 7]).wrapping_add(far);
    }
    let mixed = words.iter().zip(&ROUNDS).fold(*state, |state, (word, round)| turned(state, word.wrapping_add(*round)));
    for (sum, mixed) in state.iter_mut().zip(mixed) {
        *sum = sum.wrapping_add(mixed);
    }
}

/// The state after one round, the letters being the standard's.
#[expect(clippy::many_single_char_names, reason = "they are the standard's")]
fn turned([a, b, c, d, e, f, g, h]: [u32; 8], word: u32) -> [u32; 8] {
    let chosen = (e & f) ^ (!e & g);
    let turned_e = e.rotate_right(6) ^ e.rotate_right(11) ^ e.rotate_right(25);
    let first = h.wrapping_add(turned_e).wrapping_add(chosen).wrapping_add(word);
    let most = (a & b) ^ (a & c) ^ (b & c);
    let turned_a = a.rotate_right(2) ^ a.rotate_right(13) ^ a.rotate_right(22);
    [first.wrapping_add(turned_a).wrapping_add(most), a, b, c, d.wrapping_add(first), e, f, g]
}

/// The same by the instructions for it of many processors, several times as fast.
#[cfg(target_arch = "x86_64")]
mod by_instructions {
    use super::{BLOCK, ROUNDS};
    use std::arch::x86_64::{
        __m128i, _mm_add_epi32, _mm_alignr_epi8, _mm_blend_epi16, _mm_extract_epi32, _mm_set_epi32, _mm_set_epi64x,
        _mm_sha256msg1_epu32, _mm_sha256msg2_epu32, _mm_sha256rnds2_epu32, _mm_shuffle_epi8, _mm_shuffle_epi32,
    };

    /// Four words, the first in the lowest place.
    #[target_feature(enable = "sha,sse4.1")]
    fn four(words: &[u32]) -> __m128i {
        let word = |at: usize| words[at].cast_signed();
        _mm_set_epi32(word(3), word(2), word(1), word(0))
    }

    /// Four words of a block, whose bytes come the highest first.
    #[target_feature(enable = "sha,sse4.1")]
    fn four_of(bytes: &[u8]) -> __m128i {
        let half = |at: usize| i64::from_le_bytes(bytes[at..at + 8].try_into().expect("eight bytes"));
        let turned = _mm_set_epi64x(0x0C0D_0E0F_0809_0A0B, 0x0405_0607_0001_0203);
        _mm_shuffle_epi8(_mm_set_epi64x(half(8), half(0)), turned)
    }

    /// Mixes blocks into a state, which the instructions take as two halves: words 0, 1, 4, 5 and words 2, 3, 6, 7.
    #[target_feature(enable = "sha,sse4.1")]
    pub fn mix(state: &mut [u32; 8], blocks: &[u8]) {
        let low = _mm_shuffle_epi32(four(&state[..4]), 0xB1);
        let high = _mm_shuffle_epi32(four(&state[4..]), 0x1B);
        let (mut one, mut other) = (_mm_alignr_epi8(low, high, 8), _mm_blend_epi16(high, low, 0xF0));
        for block in blocks.chunks_exact(BLOCK) {
            let before = (one, other);
            let mut words = [four_of(block), four_of(&block[16..]), four_of(&block[32..]), four_of(&block[48..])];
            for (step, rounds) in ROUNDS.chunks_exact(4).enumerate() {
                if step >= 4 {
                    let [first, second, third, last] = words;
                    let near = _mm_sha256msg1_epu32(first, second);
                    let sum = _mm_add_epi32(near, _mm_alignr_epi8(last, third, 4));
                    words = [second, third, last, _mm_sha256msg2_epu32(sum, last)];
                }
                let sum = _mm_add_epi32(words[step.min(3)], four(rounds));
                other = _mm_sha256rnds2_epu32(other, one, sum);
                one = _mm_sha256rnds2_epu32(one, other, _mm_shuffle_epi32(sum, 0x0E));
            }
            (one, other) = (_mm_add_epi32(one, before.0), _mm_add_epi32(other, before.1));
        }
        let halves = [
            [
                _mm_extract_epi32(one, 3),
                _mm_extract_epi32(one, 2),
                _mm_extract_epi32(other, 3),
                _mm_extract_epi32(other, 2),
            ],
            [
                _mm_extract_epi32(one, 1),
                _mm_extract_epi32(one, 0),
                _mm_extract_epi32(other, 1),
                _mm_extract_epi32(other, 0),
            ],
        ];
        for (word, mixed) in state.iter_mut().zip(halves.as_flattened()) {
            *word = mixed.cast_unsigned();
        }
    }
}

#[cfg(test)]
mod tests {
    use super::*;

    /// The standard's examples, and the one of a million letters.
    #[test]
    fn vectors_of_the_standard() {
        let long = "a".repeat(1_000_000);
        for (text, hash) in [
            ("", "e3b0c44298fc1c149afbf4c8996fb92427ae41e4649b934ca495991b7852b855"),
            ("abc", "ba7816bf8f01cfea414140de5dae2223b00361a396177a9cb410ff61f20015ad"),
            (
                "abcdbcdecdefdefgefghfghighijhijkijkljklmklmnlmnomnopnopq",
                "248d6a61d20638b8e5c026930c3e6039a33ce45964ff2167f6ecedd419db06c1",
            ),
            (
                "abcdefghbcdefghicdefghijdefghijkefghijklfghijklmghijklmnhijklmnoijklmnopjklmnopqklmnopqrlmnopqrsmnopqrstnopqrstu",
                "cf5b16a778af8380036ce59e7b0492370b249b11e8f07a51afac45037afee9d1",
            ),
            (&long, "cdc76e5c9914fb9281a1c7e284d73e67f1809a48a497200e046d39ccc7112cd0"),
        ] {
            assert_eq!(Hash::of(text.as_bytes()).to_string(), hash);
        }
    }

    /// However bytes come in pieces, the hash is that of all of them; of each length around the ends of blocks.
    #[test]
    fn pieces() {
        let bytes: Vec<u8> = (0..=255).cycle().take(3 * BLOCK).collect();
        for length in 0..=bytes.len() {
            let whole = Hash::of(&bytes[..length]);
            for piece in [1, 7, 55, 56, 63, 64, 65] {
                let mut hasher = Hasher::new();
                bytes[..length].chunks(piece).for_each(|piece| hasher.add(piece));
                assert_eq!(hasher.end(), whole, "{length} by {piece}");
            }
        }
    }

    /// The instructions and the plain form agree on blocks of all sorts.
    #[test]
    fn by_instructions_and_plain() {
        let bytes: Vec<u8> = (0..100 * BLOCK).map(|at| (at * at % 251).to_le_bytes()[0]).collect();
        for blocks in 0..100 {
            let (mut one, mut other) = (START, START);
            mix(&mut one, &bytes[..blocks * BLOCK]);
            bytes[..blocks * BLOCK].chunks_exact(BLOCK).for_each(|block| mix_block(&mut other, block));
            assert_eq!(one, other, "{blocks}");
        }
    }
}
