//! MD5, step by step as RFC 1321 describes it (section 3).

use std::sync::LazyLock;

/// "Let T[i] denote the i-th element of the table, which is equal to the integer part of 4294967296 times abs(sin(i)),
/// where i is in radians." T[1] stands first.
static T: LazyLock<[u32; 64]> =
    LazyLock::new(|| std::array::from_fn(|i| (4_294_967_296.0 * ((i + 1) as f64).sin().abs()) as u32));

/// "[abcd k s i]": of each round the k of its first operation and how far the next is, and the four s.
const ROUNDS: [(usize, usize, [u32; 4]); 4] =
    [(0, 1, [7, 12, 17, 22]), (1, 5, [5, 9, 14, 20]), (5, 3, [4, 11, 16, 23]), (0, 7, [6, 10, 15, 21])];

/// The four auxiliary functions F, G, H and I.
fn auxiliary(round: usize, x: u32, y: u32, z: u32) -> u32 {
    match round {
        0 => x & y | !x & z,
        1 => x & z | y & !z,
        2 => x ^ y ^ z,
        _ => y ^ (x | !z),
    }
}

/// Steps 1 and 2: a single 1 bit, zeros until 64 bits are missing to a multiple of 512, and the length before that in
/// bits, low-order word first.
fn padded(message: &[u8]) -> Vec<u8> {
    let mut all = message.to_vec();
    all.push(0x80);
    while all.len() % 64 != 56 {
        all.push(0);
    }
    all.extend((message.len() as u64 * 8).to_le_bytes());
    all
}

pub fn md5(message: &[u8]) -> [u8; 16] {
    // Step 3: "word A: 01 23 45 67, word B: 89 ab cd ef, word C: fe dc ba 98, word D: 76 54 32 10", low-order bytes
    // first.
    let mut state: [u32; 4] = [0x6745_2301, 0xefcd_ab89, 0x98ba_dcfe, 0x1032_5476];
    for block in padded(message).chunks(64) {
        let x: [u32; 16] = std::array::from_fn(|k| u32::from_le_bytes(block[4 * k..4 * k + 4].try_into().unwrap()));
        let [mut a, mut b, mut c, mut d] = state;
        for i in 0..64 {
            let (round, step) = (i / 16, i % 16);
            let (first, far, shifts) = ROUNDS[round];
            let k = (first + far * step) % 16;
            // "a = b + ((a + F(b,c,d) + X[k] + T[i]) <<< s)", and then "[DABC ..]": d takes a's part.
            let sum = a.wrapping_add(auxiliary(round, b, c, d)).wrapping_add(x[k]).wrapping_add(T[i]);
            let next = b.wrapping_add(sum.rotate_left(shifts[step % 4]));
            (a, b, c, d) = (d, next, b, c);
        }
        for (word, more) in state.iter_mut().zip([a, b, c, d]) {
            *word = word.wrapping_add(more);
        }
    }
    // Step 5: "We begin with the low-order byte of A, and end with the high-order byte of D."
    let mut digest = [0; 16];
    for (bytes, word) in digest.chunks_mut(4).zip(state) {
        bytes.copy_from_slice(&word.to_le_bytes());
    }
    digest
}

#[cfg(test)]
mod tests {
    use super::*;

    fn hex(bytes: &[u8]) -> String {
        bytes.iter().map(|b| format!("{b:02x}")).collect()
    }

    /// RFC 1321, A.5: "The MD5 test suite".
    #[test]
    fn the_published_vectors() {
        for (message, digest) in [
            ("", "d41d8cd98f00b204e9800998ecf8427e"),
            ("a", "0cc175b9c0f1b6a831c399e269772661"),
            ("abc", "900150983cd24fb0d6963f7d28e17f72"),
            ("message digest", "f96b697d7cb7938d525a2f31aaf161d0"),
            ("abcdefghijklmnopqrstuvwxyz", "c3fcd3d76192e4007dfb496cca67e13b"),
            ("ABCDEFGHIJKLMNOPQRSTUVWXYZabcdefghijklmnopqrstuvwxyz0123456789", "d174ab98d277d9f5a5611c2c9f419d9f"),
            (
                "12345678901234567890123456789012345678901234567890123456789012345678901234567890",
                "57edf4a22be3c955ac49da2e2107b67a",
            ),
        ] {
            assert_eq!(hex(&md5(message.as_bytes())), digest, "{message}");
        }
    }

    /// RFC 1321, 3.4 and its appendix: the first and the last element of the table, and one of each round between.
    #[test]
    fn the_table() {
        assert_eq!((T[0], T[15], T[16], T[63]), (0xd76a_a478, 0x49b4_0821, 0xf61e_2562, 0xeb86_d391));
    }

    /// Lengths about the place where the length no longer fits into the last block, and that of a login; by md5sum.
    #[test]
    fn whole_blocks_and_more() {
        for (n, blocks, digest) in [
            (55, 1, "f1289732253518750e22b62a571a1748"),
            (56, 2, "179e3b9fa272a23e2a8b32bde1015414"),
            (64, 2, "e3ab394ce4eb7da020a27d2e2443143c"),
            (119, 2, "d49720530a386a3191eac0dc840dd1bd"),
            (120, 3, "8a440004b569286a42c722295ce1c5a6"),
            (128, 3, "52cc29caecfd9380a2261a80c58e6787"),
        ] {
            let message: Vec<u8> = (0..n).map(|i| (7 * i + n) as u8).collect();
            assert_eq!((padded(&message).len(), hex(&md5(&message))), (64 * blocks, digest.to_string()));
        }
    }
}
