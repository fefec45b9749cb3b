//! SHA-256 of FIPS 180-4, in the standard's order and under its names.
//!
//! A board's words are hashed as bytes, high byte first. That is how the standard
//! reads a block into words, so a message of whole words needs no bytes in between.

// 4.2.2: the first 32 bits of the fractional parts of the cube roots of the first 64 primes.
const K: [u32; 64] = [
    0x428a2f98, 0x71374491, 0xb5c0fbcf, 0xe9b5dba5, 0x3956c25b, 0x59f111f1, 0x923f82a4, 0xab1c5ed5, 0xd807aa98,
    0x12835b01, 0x243185be, 0x550c7dc3, 0x72be5d74, 0x80deb1fe, 0x9bdc06a7, 0xc19bf174, 0xe49b69c1, 0xefbe4786,
    0x0fc19dc6, 0x240ca1cc, 0x2de92c6f, 0x4a7484aa, 0x5cb0a9dc, 0x76f988da, 0x983e5152, 0xa831c66d, 0xb00327c8,
    0xbf597fc7, 0xc6e00bf3, 0xd5a79147, 0x06ca6351, 0x14292967, 0x27b70a85, 0x2e1b2138, 0x4d2c6dfc, 0x53380d13,
    0x650a7354, 0x766a0abb, 0x81c2c92e, 0x92722c85, 0xa2bfe8a1, 0xa81a664b, 0xc24b8b70, 0xc76c51a3, 0xd192e819,
    0xd6990624, 0xf40e3585, 0x106aa070, 0x19a4c116, 0x1e376c08, 0x2748774c, 0x34b0bcb5, 0x391c0cb3, 0x4ed8aa4a,
    0x5b9cca4f, 0x682e6ff3, 0x748f82ee, 0x78a5636f, 0x84c87814, 0x8cc70208, 0x90befffa, 0xa4506ceb, 0xbef9a3f7,
    0xc67178f2,
];

// 5.3.3: the initial hash value.
const H0: [u32; 8] = [0x6a09e667, 0xbb67ae85, 0x3c6ef372, 0xa54ff53a, 0x510e527f, 0x9b05688c, 0x1f83d9ab, 0x5be0cd19];

// 4.1.2: the functions.
fn ch(x: u32, y: u32, z: u32) -> u32 {
    (x & y) ^ (!x & z)
}
fn maj(x: u32, y: u32, z: u32) -> u32 {
    (x & y) ^ (x & z) ^ (y & z)
}
fn big_sigma0(x: u32) -> u32 {
    x.rotate_right(2) ^ x.rotate_right(13) ^ x.rotate_right(22)
}
fn big_sigma1(x: u32) -> u32 {
    x.rotate_right(6) ^ x.rotate_right(11) ^ x.rotate_right(25)
}
fn small_sigma0(x: u32) -> u32 {
    x.rotate_right(7) ^ x.rotate_right(18) ^ (x >> 3)
}
fn small_sigma1(x: u32) -> u32 {
    x.rotate_right(17) ^ x.rotate_right(19) ^ (x >> 10)
}

// 6.2.2: the hash value after one more block.
fn block(hash: [u32; 8], message: &[u32; 16]) -> [u32; 8] {
    let mut w = [0u32; 64];
    w[..16].copy_from_slice(message);
    for t in 16..64 {
        w[t] =
            small_sigma1(w[t - 2]).wrapping_add(w[t - 7]).wrapping_add(small_sigma0(w[t - 15])).wrapping_add(w[t - 16]);
    }
    let [mut a, mut b, mut c, mut d, mut e, mut f, mut g, mut h] = hash;
    for t in 0..64 {
        let t1 = h.wrapping_add(big_sigma1(e)).wrapping_add(ch(e, f, g)).wrapping_add(K[t]).wrapping_add(w[t]);
        let t2 = big_sigma0(a).wrapping_add(maj(a, b, c));
        h = g;
        g = f;
        f = e;
        e = d.wrapping_add(t1);
        d = c;
        c = b;
        b = a;
        a = t1.wrapping_add(t2);
    }
    let step = [a, b, c, d, e, f, g, h];
    std::array::from_fn(|i| hash[i].wrapping_add(step[i]))
}

/// SHA-256 of the words as bytes.
pub fn sha256(message: &[u32]) -> [u32; 8] {
    let mut hash = H0;
    let mut blocks = message.chunks_exact(16);
    for words in &mut blocks {
        hash = block(hash, words.try_into().expect("sixteen words"));
    }
    // 5.1.1: a one bit, zeros, and the length in bits as 64 bits at a block's end.
    let rest = blocks.remainder();
    let mut last = [0u32; 16];
    last[..rest.len()].copy_from_slice(rest);
    last[rest.len()] = 0x8000_0000;
    if rest.len() > 13 {
        hash = block(hash, &last);
        last = [0u32; 16];
    }
    let bits = message.len() as u64 * 32;
    last[14] = (bits >> 32) as u32;
    last[15] = bits as u32;
    block(hash, &last)
}

/// SHA-256 of bytes, with the padding written out as the standard has it. For the vectors.
fn sha256_bytes(message: &[u8]) -> [u32; 8] {
    let mut padded = message.to_vec();
    padded.push(0x80);
    while padded.len() % 64 != 56 {
        padded.push(0);
    }
    padded.extend((message.len() as u64 * 8).to_be_bytes());
    let mut hash = H0;
    for bytes in padded.chunks(64) {
        let words =
            std::array::from_fn(|i| u32::from_be_bytes(bytes[4 * i..4 * i + 4].try_into().expect("four bytes")));
        hash = block(hash, &words);
    }
    hash
}

/// Known answers: the standard's examples, and zero bytes with lengths around the end of a
/// block, from Python's hashlib.
pub fn check_vectors() -> Result<usize, String> {
    let a_million_times_a = vec![b'a'; 1_000_000];
    let zeros = [0; 1000];
    let vectors: [(&[u8], &str); 10] = [
        (b"", "e3b0c44298fc1c149afbf4c8996fb92427ae41e4649b934ca495991b7852b855"),
        (b"abc", "ba7816bf8f01cfea414140de5dae2223b00361a396177a9cb410ff61f20015ad"),
        (
            b"abcdbcdecdefdefgefghfghighijhijkijkljklmklmnlmnomnopnopq",
            "248d6a61d20638b8e5c026930c3e6039a33ce45964ff2167f6ecedd419db06c1",
        ),
        (
            b"abcdefghbcdefghicdefghijdefghijkefghijklfghijklmghijklmn\
              hijklmnoijklmnopjklmnopqklmnopqrlmnopqrsmnopqrstnopqrstu",
            "cf5b16a778af8380036ce59e7b0492370b249b11e8f07a51afac45037afee9d1",
        ),
        (&a_million_times_a, "cdc76e5c9914fb9281a1c7e284d73e67f1809a48a497200e046d39ccc7112cd0"),
        (&zeros[..52], "7955cb2de90dd9efc6df9fdbf5f5d10c114f4135a9a6b52db1003be749e32f7a"),
        (&zeros[..56], "d4817aa5497628e7c77e6b606107042bbba3130888c5f47a375e6179be789fbb"),
        (&zeros[..60], "5dcc1b5872dd9ff1c234501f1fefda01f664164e1583c3e1bb3dbea47588ab31"),
        (&zeros[..64], "f5a5fd42d16a20302798ef6ed309979b43003d2320d9f0e8ea9831a92759fb4b"),
        (&zeros, "541b3e9daa09b20bf85fa273e5cbd3e80185aa4ec298e765db87742b70138a53"),
    ];
    for (message, expected) in vectors {
        let hex = |hash: [u32; 8]| hash.iter().map(|w| format!("{w:08x}")).collect::<String>();
        let mut given = vec![sha256_bytes(message)];
        if message.len() % 4 == 0 {
            given.push(sha256(&crate::program::words(message)));
        }
        if given.iter().any(|&hash| hex(hash) != expected) {
            return Err(format!("SHA-256 of {} bytes is not {expected}", message.len()));
        }
    }
    Ok(vectors.len())
}

#[cfg(test)]
mod tests {
    #[test]
    fn vectors() {
        super::check_vectors().unwrap();
    }

    // Both paddings agree at every length around the ends of blocks.
    #[test]
    fn paddings_agree() {
        for count in 0..70 {
            let words: Vec<u32> = (0..count).map(|i| i * 0x0101_0107).collect();
            assert_eq!(super::sha256(&words), super::sha256_bytes(&crate::program::bytes(&words)));
        }
    }
}
