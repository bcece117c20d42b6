//! SHA-256 (FIPS 180-4), of bytes that come in parts.

const BLOCK: usize = 64;

const START: [u32; 8] =
    [0x6a09e667, 0xbb67ae85, 0x3c6ef372, 0xa54ff53a, 0x510e527f, 0x9b05688c, 0x1f83d9ab, 0x5be0cd19];

#[rustfmt::skip]
const ROUNDS: [u32; 64] = [
    0x428a2f98, 0x71374491, 0xb5c0fbcf, 0xe9b5dba5, 0x3956c25b, 0x59f111f1, 0x923f82a4, 0xab1c5ed5,
    0xd807aa98, 0x12835b01, 0x243185be, 0x550c7dc3, 0x72be5d74, 0x80deb1fe, 0x9bdc06a7, 0xc19bf174,
    0xe49b69c1, 0xefbe4786, 0x0fc19dc6, 0x240ca1cc, 0x2de92c6f, 0x4a7484aa, 0x5cb0a9dc, 0x76f988da,
    0x983e5152, 0xa831c66d, 0xb00327c8, 0xbf597fc7, 0xc6e00bf3, 0xd5a79147, 0x06ca6351, 0x14292967,
    0x27b70a85, 0x2e1b2138, 0x4d2c6dfc, 0x53380d13, 0x650a7354, 0x766a0abb, 0x81c2c92e, 0x92722c85,
    0xa2bfe8a1, 0xa81a664b, 0xc24b8b70, 0xc76c51a3, 0xd192e819, 0xd6990624, 0xf40e3585, 0x106aa070,
    0x19a4c116, 0x1e376c08, 0x2748774c, 0x34b0bcb5, 0x391c0cb3, 0x4ed8aa4a, 0x5b9cca4f, 0x682e6ff3,
    0x748f82ee, 0x78a5636f, 0x84c87814, 0x8cc70208, 0x90befffa, 0xa4506ceb, 0xbef9a3f7, 0xc67178f2,
];

#[derive(Clone)]
pub struct Sha256 {
    state: [u32; 8],
    /// The last bytes, which are no whole block yet.
    rest: [u8; BLOCK],
    /// All bytes so far.
    pub length: u64,
}

fn block(state: &mut [u32; 8], bytes: &[u8]) {
    let mut w = [0u32; 64];
    for (i, b) in bytes.chunks_exact(4).enumerate() {
        w[i] = u32::from_be_bytes([b[0], b[1], b[2], b[3]]);
    }
    for i in 16..64 {
        let (x, y) = (w[i - 15], w[i - 2]);
        let a = x.rotate_right(7) ^ x.rotate_right(18) ^ (x >> 3);
        let b = y.rotate_right(17) ^ y.rotate_right(19) ^ (y >> 10);
        w[i] = w[i - 16].wrapping_add(a).wrapping_add(w[i - 7]).wrapping_add(b);
    }
    let [mut a, mut b, mut c, mut d, mut e, mut f, mut g, mut h] = *state;
    for i in 0..64 {
        let s1 = e.rotate_right(6) ^ e.rotate_right(11) ^ e.rotate_right(25);
        let choice = (e & f) ^ (!e & g);
        let one = h.wrapping_add(s1).wrapping_add(choice).wrapping_add(ROUNDS[i]).wrapping_add(w[i]);
        let s0 = a.rotate_right(2) ^ a.rotate_right(13) ^ a.rotate_right(22);
        let two = s0.wrapping_add((a & b) ^ (a & c) ^ (b & c));
        (h, g, f, e, d, c, b, a) = (g, f, e, d.wrapping_add(one), c, b, a, one.wrapping_add(two));
    }
    for (s, x) in state.iter_mut().zip([a, b, c, d, e, f, g, h]) {
        *s = s.wrapping_add(x);
    }
}

/// The same by the processor's own instructions, where it has them.
#[cfg(target_arch = "x86_64")]
mod quick {
    use super::ROUNDS;
    use std::arch::x86_64::*;

    pub fn is_there() -> bool {
        is_x86_feature_detected!("sha") && is_x86_feature_detected!("ssse3") && is_x86_feature_detected!("sse4.1")
    }

    /// Whole blocks. Safety: the processor has these instructions.
    #[target_feature(enable = "sha,sse2,ssse3,sse4.1")]
    pub unsafe fn blocks(state: &mut [u32; 8], bytes: &[u8]) {
        let turn = _mm_set_epi64x(0x0c0d0e0f08090a0b, 0x0405060700010203);
        // The instructions take the words as a, b, e, f and c, d, g, h.
        let [a, b, c, d, e, f, g, h] = state.map(|w| w as i32);
        let mut abef = _mm_set_epi32(a, b, e, f);
        let mut cdgh = _mm_set_epi32(c, d, g, h);
        for block in bytes.chunks_exact(super::BLOCK) {
            let (abef_before, cdgh_before) = (abef, cdgh);
            let mut w = [_mm_setzero_si128(); 4];
            for (i, word) in w.iter_mut().enumerate() {
                *word = _mm_shuffle_epi8(unsafe { _mm_loadu_si128(block[16 * i..].as_ptr().cast()) }, turn);
            }
            for i in 0..16 {
                let k = unsafe { _mm_loadu_si128(ROUNDS[4 * i..].as_ptr().cast()) };
                let sum = _mm_add_epi32(w[i % 4], k);
                cdgh = _mm_sha256rnds2_epu32(cdgh, abef, sum);
                abef = _mm_sha256rnds2_epu32(abef, cdgh, _mm_shuffle_epi32(sum, 0x0e));
                if i < 12 {
                    // The four words that are needed four steps later.
                    let (one, two, three) = (w[(i + 1) % 4], w[(i + 2) % 4], w[(i + 3) % 4]);
                    let first = _mm_sha256msg1_epu32(w[i % 4], one);
                    let next = _mm_add_epi32(first, _mm_alignr_epi8(three, two, 4));
                    w[i % 4] = _mm_sha256msg2_epu32(next, three);
                }
            }
            abef = _mm_add_epi32(abef, abef_before);
            cdgh = _mm_add_epi32(cdgh, cdgh_before);
        }
        let (mut x, mut y) = ([0u32; 4], [0u32; 4]);
        unsafe {
            _mm_storeu_si128(x.as_mut_ptr().cast(), abef);
            _mm_storeu_si128(y.as_mut_ptr().cast(), cdgh);
        }
        *state = [x[3], x[2], y[3], y[2], x[1], x[0], y[1], y[0]];
    }
}

/// Whole blocks.
fn blocks(state: &mut [u32; 8], bytes: &[u8]) {
    #[cfg(target_arch = "x86_64")]
    if quick::is_there() {
        return unsafe { quick::blocks(state, bytes) };
    }
    bytes.chunks_exact(BLOCK).for_each(|b| block(state, b));
}

impl Default for Sha256 {
    fn default() -> Sha256 {
        Sha256 { state: START, rest: [0; BLOCK], length: 0 }
    }
}

impl Sha256 {
    pub fn add(&mut self, mut bytes: &[u8]) {
        let have = self.length as usize % BLOCK;
        self.length += bytes.len() as u64;
        if have > 0 {
            let n = bytes.len().min(BLOCK - have);
            self.rest[have..have + n].copy_from_slice(&bytes[..n]);
            bytes = &bytes[n..];
            if have + n < BLOCK {
                return;
            }
            blocks(&mut self.state, &self.rest);
        }
        let (whole, left) = bytes.split_at(bytes.len() - bytes.len() % BLOCK);
        blocks(&mut self.state, whole);
        self.rest[..left.len()].copy_from_slice(left);
    }

    /// The digest of the bytes so far, in hexadecimal digits.
    pub fn hex(&self) -> String {
        let mut last = self.clone();
        let bits = self.length * 8;
        let have = self.length as usize % BLOCK;
        let zeros = if have < 56 { 55 - have } else { 119 - have };
        let mut end = vec![0x80];
        end.resize(1 + zeros, 0);
        end.extend(bits.to_be_bytes());
        last.add(&end);
        last.state.iter().map(|w| format!("{w:08x}")).collect()
    }
}

#[cfg(test)]
mod tests {
    use super::*;

    fn of(bytes: &[u8]) -> String {
        let mut d = Sha256::default();
        d.add(bytes);
        d.hex()
    }

    /// FIPS 180-4's examples, and of NIST's byte vectors those of 0, 1, 55, 56, 57 and 64 bytes.
    #[test]
    fn published_vectors() {
        let long = "abcdefghbcdefghicdefghijdefghijkefghijklfghijklmghijklmnhijklmnoijklmnopjklmnopqklmnopqrlmnopqrsmnopqrstnopqrstu";
        for (bytes, digest) in [
            (&b""[..], "e3b0c44298fc1c149afbf4c8996fb92427ae41e4649b934ca495991b7852b855"),
            (b"abc", "ba7816bf8f01cfea414140de5dae2223b00361a396177a9cb410ff61f20015ad"),
            (
                b"abcdbcdecdefdefgefghfghighijhijkijkljklmklmnlmnomnopnopq",
                "248d6a61d20638b8e5c026930c3e6039a33ce45964ff2167f6ecedd419db06c1",
            ),
            (long.as_bytes(), "cf5b16a778af8380036ce59e7b0492370b249b11e8f07a51afac45037afee9d1"),
            (&[0xbd], "68325720aabd7c82f30f554b313d0570c95accbb7dc4b5aae11204c08ffe732b"),
            (&[0; 55], "02779466cdec163811d078815c633f21901413081449002f24aa3e80f0b88ef7"),
            (&[0; 56], "d4817aa5497628e7c77e6b606107042bbba3130888c5f47a375e6179be789fbb"),
            (&[0; 57], "65a16cb7861335d5ace3c60718b5052e44660726da4cd13bb745381b235a1785"),
            (&[0; 64], "f5a5fd42d16a20302798ef6ed309979b43003d2320d9f0e8ea9831a92759fb4b"),
            (&[0; 1_000], "541b3e9daa09b20bf85fa273e5cbd3e80185aa4ec298e765db87742b70138a53"),
            (&[0x41; 1_000], "c2e686823489ced2017f6059b8b239318b6364f6dcd835d0a519105a1eadd6e4"),
            (&[0x55; 1_005], "f4d62ddec0f3dd90ea1380fa16a5ff8dc4c54b21740650f24afc4120903552b0"),
        ] {
            assert_eq!(of(bytes), digest);
        }
        let million = "cdc76e5c9914fb9281a1c7e284d73e67f1809a48a497200e046d39ccc7112cd0";
        assert_eq!(of(&vec![b'a'; 1_000_000]), million);
    }

    /// Both ways give the same, on a processor that has both.
    #[test]
    fn both_ways_are_one() {
        let bytes: Vec<u8> = (0..64_000u32).map(|i| (i * i / 7 + i) as u8).collect();
        let (mut one, mut other) = (START, START);
        bytes.chunks_exact(BLOCK).for_each(|b| block(&mut one, b));
        blocks(&mut other, &bytes);
        assert_eq!(one, other);
    }

    #[test]
    fn parts_of_any_length() {
        let bytes: Vec<u8> = (0..1_000u32).map(|i| (i * 7 + i / 256) as u8).collect();
        for part in [1, 3, 63, 64, 65, 128, 999] {
            let mut d = Sha256::default();
            bytes.chunks(part).for_each(|p| d.add(p));
            assert_eq!((d.hex(), d.length), (of(&bytes), 1_000));
        }
    }
}
