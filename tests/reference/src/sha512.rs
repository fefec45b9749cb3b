//! SHA-384 and SHA-512 of FIPS 180-4, in the standard's order and under its names.
//!
//! They differ in the initial hash value alone, and SHA-384 gives the first 384 bits. A board's words are hashed as bytes, high
//! byte first: two of them are a word of the standard, the high one first.

// 4.2.3: the first 64 bits of the fractional parts of the cube roots of the first 80 primes.
const K: [u64; 80] = [
    0x428a2f98d728ae22,
    0x7137449123ef65cd,
    0xb5c0fbcfec4d3b2f,
    0xe9b5dba58189dbbc,
    0x3956c25bf348b538,
    0x59f111f1b605d019,
    0x923f82a4af194f9b,
    0xab1c5ed5da6d8118,
    0xd807aa98a3030242,
    0x12835b0145706fbe,
    0x243185be4ee4b28c,
    0x550c7dc3d5ffb4e2,
    0x72be5d74f27b896f,
    0x80deb1fe3b1696b1,
    0x9bdc06a725c71235,
    0xc19bf174cf692694,
    0xe49b69c19ef14ad2,
    0xefbe4786384f25e3,
    0x0fc19dc68b8cd5b5,
    0x240ca1cc77ac9c65,
    0x2de92c6f592b0275,
    0x4a7484aa6ea6e483,
    0x5cb0a9dcbd41fbd4,
    0x76f988da831153b5,
    0x983e5152ee66dfab,
    0xa831c66d2db43210,
    0xb00327c898fb213f,
    0xbf597fc7beef0ee4,
    0xc6e00bf33da88fc2,
    0xd5a79147930aa725,
    0x06ca6351e003826f,
    0x142929670a0e6e70,
    0x27b70a8546d22ffc,
    0x2e1b21385c26c926,
    0x4d2c6dfc5ac42aed,
    0x53380d139d95b3df,
    0x650a73548baf63de,
    0x766a0abb3c77b2a8,
    0x81c2c92e47edaee6,
    0x92722c851482353b,
    0xa2bfe8a14cf10364,
    0xa81a664bbc423001,
    0xc24b8b70d0f89791,
    0xc76c51a30654be30,
    0xd192e819d6ef5218,
    0xd69906245565a910,
    0xf40e35855771202a,
    0x106aa07032bbd1b8,
    0x19a4c116b8d2d0c8,
    0x1e376c085141ab53,
    0x2748774cdf8eeb99,
    0x34b0bcb5e19b48a8,
    0x391c0cb3c5c95a63,
    0x4ed8aa4ae3418acb,
    0x5b9cca4f7763e373,
    0x682e6ff3d6b2b8a3,
    0x748f82ee5defb2fc,
    0x78a5636f43172f60,
    0x84c87814a1f0ab72,
    0x8cc702081a6439ec,
    0x90befffa23631e28,
    0xa4506cebde82bde9,
    0xbef9a3f7b2c67915,
    0xc67178f2e372532b,
    0xca273eceea26619c,
    0xd186b8c721c0c207,
    0xeada7dd6cde0eb1e,
    0xf57d4f7fee6ed178,
    0x06f067aa72176fba,
    0x0a637dc5a2c898a6,
    0x113f9804bef90dae,
    0x1b710b35131c471b,
    0x28db77f523047d84,
    0x32caab7b40c72493,
    0x3c9ebe0a15c9bebc,
    0x431d67c49c100d4c,
    0x4cc5d4becb3e42b6,
    0x597f299cfc657e2a,
    0x5fcb6fab3ad6faec,
    0x6c44198c4a475817,
];

// 5.3.4 and 5.3.5: the initial hash values.
const H0_384: [u64; 8] = [
    0xcbbb9d5dc1059ed8,
    0x629a292a367cd507,
    0x9159015a3070dd17,
    0x152fecd8f70e5939,
    0x67332667ffc00b31,
    0x8eb44a8768581511,
    0xdb0c2e0d64f98fa7,
    0x47b5481dbefa4fa4,
];
const H0_512: [u64; 8] = [
    0x6a09e667f3bcc908,
    0xbb67ae8584caa73b,
    0x3c6ef372fe94f82b,
    0xa54ff53a5f1d36f1,
    0x510e527fade682d1,
    0x9b05688c2b3e6c1f,
    0x1f83d9abfb41bd6b,
    0x5be0cd19137e2179,
];

// 4.1.3: the functions.
fn ch(x: u64, y: u64, z: u64) -> u64 {
    (x & y) ^ (!x & z)
}
fn maj(x: u64, y: u64, z: u64) -> u64 {
    (x & y) ^ (x & z) ^ (y & z)
}
fn big_sigma0(x: u64) -> u64 {
    x.rotate_right(28) ^ x.rotate_right(34) ^ x.rotate_right(39)
}
fn big_sigma1(x: u64) -> u64 {
    x.rotate_right(14) ^ x.rotate_right(18) ^ x.rotate_right(41)
}
fn small_sigma0(x: u64) -> u64 {
    x.rotate_right(1) ^ x.rotate_right(8) ^ (x >> 7)
}
fn small_sigma1(x: u64) -> u64 {
    x.rotate_right(19) ^ x.rotate_right(61) ^ (x >> 6)
}

/// A block's words of 32 bits.
const BLOCK: usize = 32;

// 5.2.2: a block as words of 64 bits.
fn parsed(words: &[u32; BLOCK]) -> [u64; 16] {
    std::array::from_fn(|i| u64::from(words[2 * i]) << 32 | u64::from(words[2 * i + 1]))
}

// 6.4.2: the hash value after one more block.
fn block(hash: [u64; 8], message: &[u64; 16]) -> [u64; 8] {
    let mut w = [0u64; 80];
    w[..16].copy_from_slice(message);
    for t in 16..80 {
        w[t] =
            small_sigma1(w[t - 2]).wrapping_add(w[t - 7]).wrapping_add(small_sigma0(w[t - 15])).wrapping_add(w[t - 16]);
    }
    let [mut a, mut b, mut c, mut d, mut e, mut f, mut g, mut h] = hash;
    for t in 0..80 {
        let t1 = h.wrapping_add(big_sigma1(e)).wrapping_add(ch(e, f, g)).wrapping_add(K[t]).wrapping_add(w[t]);
        let t2 = big_sigma0(a).wrapping_add(maj(a, b, c));
        h = g;
        g = f;
        f = e;
        e = d.wrapping_add(t1);
        d = c;
        c = b;
        b = a;
        a = t1.wrapping_add(t2);
    }
    let step = [a, b, c, d, e, f, g, h];
    std::array::from_fn(|i| hash[i].wrapping_add(step[i]))
}

/// The last hash value, from this initial one.
fn hashed(initial: [u64; 8], message: &[u32]) -> [u64; 8] {
    let mut hash = initial;
    let mut blocks = message.chunks_exact(BLOCK);
    for words in &mut blocks {
        hash = block(hash, &parsed(words.try_into().expect("thirty-two words")));
    }
    // 5.1.2: a one bit, zeros, and the length in bits as 128 bits at a block's end.
    let rest = blocks.remainder();
    let mut last = [0u32; BLOCK];
    last[..rest.len()].copy_from_slice(rest);
    last[rest.len()] = 0x8000_0000;
    if rest.len() + 1 > BLOCK - 4 {
        hash = block(hash, &parsed(&last));
        last = [0u32; BLOCK];
    }
    let bits = message.len() as u128 * 32;
    for (at, word) in last[BLOCK - 4..].iter_mut().enumerate() {
        *word = (bits >> (96 - 32 * at)) as u32;
    }
    block(hash, &parsed(&last))
}

/// The first words of a hash value.
fn first<const COUNT: usize>(hash: [u64; 8]) -> [u32; COUNT] {
    std::array::from_fn(|i| (hash[i / 2] >> (32 - 32 * (i % 2))) as u32)
}

/// SHA-384 of the words as bytes.
pub fn sha384(message: &[u32]) -> [u32; 12] {
    first(hashed(H0_384, message))
}

/// SHA-512 of the words as bytes.
pub fn sha512(message: &[u32]) -> [u32; 16] {
    first(hashed(H0_512, message))
}

/// The last hash value for bytes, with the padding written out as the standard has it. For the vectors.
fn hashed_bytes(initial: [u64; 8], message: &[u8]) -> [u64; 8] {
    let mut padded = message.to_vec();
    padded.push(0x80);
    while padded.len() % 128 != 112 {
        padded.push(0);
    }
    padded.extend((message.len() as u128 * 8).to_be_bytes());
    let mut hash = initial;
    for bytes in padded.chunks(128) {
        let words =
            std::array::from_fn(|i| u64::from_be_bytes(bytes[8 * i..8 * i + 8].try_into().expect("eight bytes")));
        hash = block(hash, &words);
    }
    hash
}

/// Known answers, of SHA-384 and SHA-512 each: the standard's examples, and zero bytes with lengths around the end of a
/// block, from Python's hashlib.
pub fn check_vectors() -> Result<usize, String> {
    let a_million_times_a = vec![b'a'; 1_000_000];
    let zeros = [0; 1000];
    let vectors: [(&[u8], [&str; 2]); 11] = [
        (b"", [
            "38b060a751ac96384cd9327eb1b1e36a21fdb71114be07434c0cc7bf63f6e1da274edebfe76f65fbd51ad2f14898b95b",
            "cf83e1357eefb8bdf1542850d66d8007d620e4050b5715dc83f4a921d36ce9ce47d0d13c5d85f2b0ff8318d2877eec2f63b931bd47417a81a538327af927da3e",
        ]),
        (b"abc", [
            "cb00753f45a35e8bb5a03d699ac65007272c32ab0eded1631a8b605a43ff5bed8086072ba1e7cc2358baeca134c825a7",
            "ddaf35a193617abacc417349ae20413112e6fa4e89a97ea20a9eeee64b55d39a2192992a274fc1a836ba3c23a3feebbd454d4423643ce80e2a9ac94fa54ca49f",
        ]),
        (b"abcdefghbcdefghicdefghijdefghijkefghijklfghijklmghijklmn\
              hijklmnoijklmnopjklmnopqklmnopqrlmnopqrsmnopqrstnopqrstu", [
            "09330c33f71147e83d192fc782cd1b4753111b173b3b05d22fa08086e3b0f712fcc7c71a557e2db966c3e9fa91746039",
            "8e959b75dae313da8cf4f72814fc143f8f7779c6eb9f7fa17299aeadb6889018501d289e4900f7e4331b99dec4b5433ac7d329eeb6dd26545e96e55b874be909",
        ]),
        (&a_million_times_a, [
            "9d0e1809716474cb086e834e310a4a1ced149e9c00f248527972cec5704c2a5b07b8b3dc38ecc4ebae97ddd87f3d8985",
            "e718483d0ce769644e2e42c7bc15b4638e1f98b13b2044285632a803afa973ebde0ff244877ea60a4cb0432ce577c31beb009c5c2c49aa2e4eadb217ad8cc09b",
        ]),
        (&zeros[..108], [
            "e3da042978c10f72718ba41fdb123e94e66dfe1aa1cb0a1c7869c9d61ce9525a80bf2d5259a769dd2b7279363a74259d",
            "a3e171c1c71e0c8fb05df6d783f5ac9c7ce0f9c3bbe653952ea048adce025192d5eba4ed8cc7800bd52afd265256ecea887ea63725c49cf563455ff321d45e76",
        ]),
        (&zeros[..112], [
            "3e0cbf3aee0e3aa70415beae1bd12dd7db821efa446440f12132edffce76f635e53526a111491e75ee8e27b9700eec20",
            "2be2e788c8a8adeaa9c89a7f78904cacea6e39297d75e0573a73c756234534d6627ab4156b48a6657b29ab8beb73334040ad39ead81446bb09c70704ec707952",
        ]),
        (&zeros[..116], [
            "6205b9d0d2693cc9e0bdd3c65ab8f9f4c36b1040cadaf45c02ea08bd57aa69159e20334701b3fc32f45c0a383128fdb1",
            "48524ff46d1c5bf4c6a5560a2e13aae75b8e096cb912a7a0aa2d5d59b8667c0889453e34070d74fa6ce6e8294e3e703c4aa3b58b351086449de5fa7f1d07d8ef",
        ]),
        (&zeros[..124], [
            "93cfb93df697c2df6ec0357e307e400c5d940d45f77ec836ece84367b856822a29cccfc49569416a2dae1629311d9788",
            "bb78c9783303a24dbe8e5fcb112d9a4872d8521f30662770c6a4182cc6fd78ba865c467a5ae3d4d6348a5011aeb6df95b46b6c99cf2bced2beefeaba04ee458c",
        ]),
        (&zeros[..128], [
            "f809b88323411f24a6f152e5e9d9d1b5466b77e0f3c7550f8b242c31b6e7b99bcb45bdecb6124bc23283db3b9fc4f5b3",
            "ab942f526272e456ed68a979f50202905ca903a141ed98443567b11ef0bf25a552d639051a01be58558122c58e3de07d749ee59ded36acf0c55cd91924d6ba11",
        ]),
        (&zeros[..132], [
            "988d45beb70f354831e8eadb8b676d1cf58938e4bc8d09b6935c6627a6b91f71c1a047bd0082b675d1f4b6ce2766eac9",
            "a191f83247bb1ffc8f4fac4531427cc5546ef7b9991b65bd361be41382708cacbd56c15cec16495909419f9b2026c6e7048be9256d9c755f5f5ca97484f794a0",
        ]),
        (&zeros, [
            "aae017d4ae5b6346dd60a19d52130fb55194b6327dd40b89c11efc8222292de81e1a23c9b59f9f58b7f6ad463fa108ca",
            "ca3dff61bb23477aa6087b27508264a6f9126ee3a004f53cb8db942ed345f2f2d229b4b59c859220a1cf1913f34248e3803bab650e849a3d9a709edc09ae4a76",
        ]),
    ];
    for (message, [expected_384, expected_512]) in vectors {
        let hex = |words: &[u32]| words.iter().map(|w| format!("{w:08x}")).collect::<String>();
        let mut given_384 = vec![hex(&first::<12>(hashed_bytes(H0_384, message)))];
        let mut given_512 = vec![hex(&first::<16>(hashed_bytes(H0_512, message)))];
        if message.len() % 4 == 0 {
            given_384.push(hex(&sha384(&crate::program::words(message))));
            given_512.push(hex(&sha512(&crate::program::words(message))));
        }
        for (name, given, expected) in [("SHA-384", given_384, expected_384), ("SHA-512", given_512, expected_512)] {
            if given.iter().any(|hash| hash != expected) {
                return Err(format!("{name} of {} bytes is not {expected}", message.len()));
            }
        }
    }
    Ok(2 * vectors.len())
}

#[cfg(test)]
mod tests {
    use super::*;

    #[test]
    fn vectors() {
        check_vectors().unwrap();
    }

    // Both paddings agree at every length around the ends of blocks.
    #[test]
    fn paddings_agree() {
        for count in 0..140 {
            let words: Vec<u32> = (0..count).map(|i| i * 0x0101_0107).collect();
            let bytes = crate::program::bytes(&words);
            assert_eq!(sha384(&words), first::<12>(hashed_bytes(H0_384, &bytes)));
            assert_eq!(sha512(&words), first::<16>(hashed_bytes(H0_512, &bytes)));
        }
    }
}
