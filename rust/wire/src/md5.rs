//! MD5 (RFC 1321), for the digest that a login by MD5 sends.

const START: [u32; 4] = [0x67452301, 0xefcdab89, 0x98badcfe, 0x10325476];

/// How far each of a round's steps turns, four by four.
const TURNS: [[u32; 4]; 4] = [[7, 12, 17, 22], [5, 9, 14, 20], [4, 11, 16, 23], [6, 10, 15, 21]];

/// "The integer part of 4294967296 times abs(sin(i))", i from 1 in radians.
fn table(i: usize) -> u32 {
    (4294967296.0 * (i as f64).sin().abs()) as u32
}

fn block(state: &mut [u32; 4], bytes: &[u8]) {
    let word = |k: usize| u32::from_le_bytes([bytes[4 * k], bytes[4 * k + 1], bytes[4 * k + 2], bytes[4 * k + 3]]);
    let [mut a, mut b, mut c, mut d] = *state;
    for i in 0..64 {
        let (mixed, k) = match i / 16 {
            0 => ((b & c) | (!b & d), i),
            1 => ((b & d) | (c & !d), (5 * i + 1) % 16),
            2 => (b ^ c ^ d, (3 * i + 5) % 16),
            _ => (c ^ (b | !d), 7 * i % 16),
        };
        let sum = a.wrapping_add(mixed).wrapping_add(word(k)).wrapping_add(table(i + 1));
        let next = b.wrapping_add(sum.rotate_left(TURNS[i / 16][i % 4]));
        (a, d, c, b) = (d, c, b, next);
    }
    for (s, x) in state.iter_mut().zip([a, b, c, d]) {
        *s = s.wrapping_add(x);
    }
}

pub fn md5(bytes: &[u8]) -> [u8; 16] {
    let mut all = bytes.to_vec();
    all.push(0x80);
    all.resize((all.len() + 8).next_multiple_of(64) - 8, 0);
    all.extend((bytes.len() as u64).wrapping_mul(8).to_le_bytes());
    let mut state = START;
    all.chunks_exact(64).for_each(|b| block(&mut state, b));
    let mut digest = [0; 16];
    digest.chunks_exact_mut(4).zip(state).for_each(|(part, word)| part.copy_from_slice(&word.to_le_bytes()));
    digest
}

/// What a login by MD5 sends (NDMP draft, 3.1.2): the digest of "the 1 to 32 byte password, 0 to 62 bytes of null
/// (0x00) padding, the 64 byte random challenge string .., and the 1 to 32 byte password again". A password of another
/// length has none.
pub fn login_digest(password: &[u8], challenge: &[u8; 64]) -> Option<[u8; 16]> {
    let fill = (1..=32).contains(&password.len()).then(|| vec![0; 64 - 2 * password.len()])?;
    Some(md5(&[password, &fill, challenge, password].concat()))
}

#[cfg(test)]
mod tests {
    use super::*;

    fn hex(bytes: &[u8]) -> String {
        bytes.iter().map(|b| format!("{b:02x}")).collect()
    }

    /// RFC 1321, A.5.
    #[test]
    fn published_vectors() {
        for (text, digest) in [
            ("", "d41d8cd98f00b204e9800998ecf8427e"),
            ("a", "0cc175b9c0f1b6a831c399e269772661"),
            ("abc", "900150983cd24fb0d6963f7d28e17f72"),
            ("message digest", "f96b697d7cb7938d525a2f31aaf161d0"),
            ("abcdefghijklmnopqrstuvwxyz", "c3fcd3d76192e4007dfb496cca67e13b"),
            ("ABCDEFGHIJKLMNOPQRSTUVWXYZabcdefghijklmnopqrstuvwxyz0123456789", "d174ab98d277d9f5a5611c2c9f419d9f"),
            (
                "12345678901234567890123456789012345678901234567890123456789012345678901234567890",
                "57edf4a22be3c955ac49da2e2107b67a",
            ),
        ] {
            assert_eq!(hex(&md5(text.as_bytes())), digest, "{text}");
        }
    }

    /// A login that ndmjob made, with the password ndmp; passwords of other lengths than the draft's have none.
    #[test]
    fn login_of_another_program() {
        let told = "2eed00e8d2957f8ed95ab25ee64ea78a79a41713de18e9f96deb0b6916d60243\
                    a96c5d5d70f8c0637256a9a0ab69726e80e6647e2f90aa14e762109a23ce7ef2";
        let mut challenge = [0; 64];
        for (i, b) in challenge.iter_mut().enumerate() {
            *b = u8::from_str_radix(&told[2 * i..2 * i + 2], 16).unwrap();
        }
        assert_eq!(hex(&login_digest(b"ndmp", &challenge).unwrap()), "5da7ac7324b97caf774d6ea4927f57d0");
        let made = |n: usize| login_digest(&[b'x'; 33][..n], &challenge).is_some();
        assert_eq!([0, 1, 32, 33].map(made), [false, true, true, false]);
    }
}
