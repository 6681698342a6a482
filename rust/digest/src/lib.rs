//! SHA-256, as FIPS 180-4 defines it.

#[cfg(target_arch = "x86_64")]
mod instructions;

/// The first 64 primes, from whose roots the constants come.
const PRIMES: [u64; 64] = primes();

/// The first 32 bits of the fractional parts of the cube roots of the primes.
const CONSTANTS: [u32; 64] = root_bits(3);

/// The first 32 bits of the fractional parts of the square roots of the primes. Eight of them are used.
const ROOTS: [u32; 64] = root_bits(2);

const fn primes() -> [u64; 64] {
    let (mut found, mut count, mut number) = ([0; 64], 0, 2);
    while count < 64 {
        let mut divisor = 2;
        while divisor * divisor <= number && number % divisor != 0 {
            divisor += 1;
        }
        if divisor * divisor > number {
            found[count] = number;
            count += 1;
        }
        number += 1;
    }
    found
}

const fn root_bits(power: u32) -> [u32; 64] {
    let (mut bits, mut at) = ([0; 64], 0);
    while at < 64 {
        // The largest r with r^power at most prime × 2^(32 × power).
        let (mut low, mut high) = (0u128, 1u128 << 40);
        while high - low > 1 {
            let middle = (low + high) / 2;
            if middle.pow(power - 1) <= ((PRIMES[at] as u128) << (32 * power)) / middle {
                low = middle;
            } else {
                high = middle;
            }
        }
        bits[at] = low as u32;
        at += 1;
    }
    bits
}

fn compress(state: &mut [u32; 8], block: &[u8; 64]) {
    #[cfg(target_arch = "x86_64")]
    if instructions::are_there() {
        // SAFETY: the processor has them.
        return unsafe { instructions::compress(state, block) };
    }
    compress_anywhere(state, block);
}

fn compress_anywhere(state: &mut [u32; 8], block: &[u8; 64]) {
    let mut words = [0; 64];
    for (word, bytes) in words.iter_mut().zip(block.as_chunks().0) {
        *word = u32::from_be_bytes(*bytes);
    }
    for at in 16..64 {
        let (early, late) = (words[at - 15], words[at - 2]);
        let first = early.rotate_right(7) ^ early.rotate_right(18) ^ (early >> 3);
        let second = late.rotate_right(17) ^ late.rotate_right(19) ^ (late >> 10);
        words[at] = words[at - 16].wrapping_add(first).wrapping_add(words[at - 7]).wrapping_add(second);
    }
    let [mut a, mut b, mut c, mut d, mut e, mut f, mut g, mut h] = *state;
    for (word, constant) in words.iter().zip(CONSTANTS) {
        let mixed = e.rotate_right(6) ^ e.rotate_right(11) ^ e.rotate_right(25);
        let chosen = (e & f) ^ (!e & g);
        let first = h.wrapping_add(mixed).wrapping_add(chosen).wrapping_add(constant).wrapping_add(*word);
        let turned = a.rotate_right(2) ^ a.rotate_right(13) ^ a.rotate_right(22);
        let second = turned.wrapping_add((a & b) ^ (a & c) ^ (b & c));
        (h, g, f, e, d, c, b, a) = (g, f, e, d.wrapping_add(first), c, b, a, first.wrapping_add(second));
    }
    for (kept, new) in state.iter_mut().zip([a, b, c, d, e, f, g, h]) {
        *kept = kept.wrapping_add(new);
    }
}

/// The digest of these bytes.
pub fn sha256(bytes: &[u8]) -> [u8; 32] {
    let mut state = *ROOTS.first_chunk().expect("eight of 64");
    let (blocks, rest) = bytes.as_chunks();
    for block in blocks {
        compress(&mut state, block);
    }
    let mut last = [0; 128];
    last[..rest.len()].copy_from_slice(rest);
    last[rest.len()] = 0x80;
    let length = if rest.len() < 56 { 64 } else { 128 };
    last[length - 8..length].copy_from_slice(&(bytes.len() as u64 * 8).to_be_bytes());
    for block in last[..length].as_chunks().0 {
        compress(&mut state, block);
    }
    let mut digest = [0; 32];
    for (bytes, word) in digest.as_chunks_mut().0.iter_mut().zip(state) {
        *bytes = word.to_be_bytes();
    }
    digest
}

#[cfg(test)]
mod tests {
    use super::*;

    fn hex(bytes: &[u8]) -> String {
        bytes.iter().map(|byte| format!("{byte:02x}")).collect()
    }

    // The examples of FIPS 180.
    #[test]
    fn digests() {
        assert_eq!(hex(&sha256(b"")), "e3b0c44298fc1c149afbf4c8996fb92427ae41e4649b934ca495991b7852b855");
        assert_eq!(hex(&sha256(b"abc")), "ba7816bf8f01cfea414140de5dae2223b00361a396177a9cb410ff61f20015ad");
        let two_blocks = b"abcdbcdecdefdefgefghfghighijhijkijkljklmklmnlmnomnopnopq";
        assert_eq!(hex(&sha256(two_blocks)), "248d6a61d20638b8e5c026930c3e6039a33ce45964ff2167f6ecedd419db06c1");
        let million = vec![b'a'; 1_000_000];
        assert_eq!(hex(&sha256(&million)), "cdc76e5c9914fb9281a1c7e284d73e67f1809a48a497200e046d39ccc7112cd0");
    }

    // With the processor's instructions, where it has them, and without: the same, from any state and for any block.
    #[test]
    fn both_ways() {
        let mut state: [u32; 8] = *ROOTS.first_chunk().expect("eight of 64");
        let mut other = state;
        for round in 0..1_000u32 {
            let block = std::array::from_fn(|at| (round.wrapping_mul(0x9E37_79B9).rotate_left(at as u32) >> 11) as u8);
            compress(&mut state, &block);
            compress_anywhere(&mut other, &block);
            assert_eq!(state, other, "round {round}");
        }
    }

    // Lengths about the end of a block, by the digest of their digests, as Python's hashlib gives it.
    #[test]
    fn ends_of_blocks() {
        let bytes: Vec<u8> = (0..=255).collect();
        let digests: Vec<u8> = (0..=130).flat_map(|length| sha256(&bytes[..length])).collect();
        assert_eq!(hex(&sha256(&digests)), "e5bbbecd60c3632a3455f465bfd8b079c30ef608d2bcc34227f4e5573029020e");
    }
}
