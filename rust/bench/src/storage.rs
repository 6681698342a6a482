//! Words rearranged and restored as plain Rust would have it, in the library's order of loops and in the other.

fn is_taken(words: &[u64], bytes: &[u8]) -> bool {
    words.len() <= 4096 && bytes.len() == 8 * words.len()
}

/// Plane after plane, as the library goes: the words are read eight times, each time in their order.
pub fn rearrange_by_planes(words: &[u64], bytes: &mut [u8]) -> bool {
    if !is_taken(words, bytes) {
        return false;
    }
    if words.is_empty() {
        return true;
    }
    for (plane, shift) in bytes.chunks_exact_mut(words.len()).zip((0..64).step_by(8).rev()) {
        let mut before = 0;
        for (byte, &word) in plane.iter_mut().zip(words) {
            *byte = (word.wrapping_sub(before) >> shift) as u8;
            before = word;
        }
    }
    true
}

/// Word after word: the words are read once, and eight planes are written side by side.
pub fn rearrange_by_words(words: &[u64], bytes: &mut [u8]) -> bool {
    if !is_taken(words, bytes) {
        return false;
    }
    let mut before = 0;
    for (index, &word) in words.iter().enumerate() {
        for (plane, byte) in word.wrapping_sub(before).to_be_bytes().into_iter().enumerate() {
            bytes[plane * words.len() + index] = byte;
        }
        before = word;
    }
    true
}

/// Word after word, as the library goes: eight planes are read side by side, and the words are written once.
pub fn restore_by_words(bytes: &[u8], words: &mut [u64]) -> bool {
    if !is_taken(words, bytes) {
        return false;
    }
    let (mut sum, count) = (0_u64, words.len());
    for (index, word) in words.iter_mut().enumerate() {
        let difference = std::array::from_fn(|plane| bytes[plane * count + index]);
        sum = sum.wrapping_add(u64::from_be_bytes(difference));
        *word = sum;
    }
    true
}

/// The same with the planes cut apart first, so that no index is tested in the loop.
pub fn restore_by_parts(bytes: &[u8], words: &mut [u64]) -> bool {
    if !is_taken(words, bytes) {
        return false;
    }
    let (mut sum, count) = (0_u64, words.len());
    let plane = |number: usize| &bytes[number * count..][..count];
    let (a, b, c, d) = (plane(0), plane(1), plane(2), plane(3));
    let (e, f, g, h) = (plane(4), plane(5), plane(6), plane(7));
    for i in 0..count {
        sum = sum.wrapping_add(u64::from_be_bytes([a[i], b[i], c[i], d[i], e[i], f[i], g[i], h[i]]));
        words[i] = sum;
    }
    true
}

/// Plane after plane: the words are written eight times, and once more for the sums.
pub fn restore_by_planes(bytes: &[u8], words: &mut [u64]) -> bool {
    if !is_taken(words, bytes) {
        return false;
    }
    if words.is_empty() {
        return true;
    }
    words.fill(0);
    for plane in bytes.chunks_exact(words.len()) {
        for (word, &byte) in words.iter_mut().zip(plane) {
            *word = *word << 8 | u64::from(byte);
        }
    }
    let mut sum = 0_u64;
    for word in words {
        sum = sum.wrapping_add(*word);
        *word = sum;
    }
    true
}

#[cfg(test)]
mod tests {
    use super::*;
    use model::Answer;
    use model::random::Random;

    // Wrong bytes may be fast ones.
    #[test]
    fn all_agree_with_the_model() {
        let mut random = Random::new(6);
        for (words, bytes) in [(0, 0), (1, 8), (7, 56), (7, 57), (4096, 32768), (4097, 32776)] {
            let lent: Vec<u64> = (0..words).map(|_| random.word()).collect();
            let stored: Vec<u8> = (0..bytes).map(|_| random.word() as u8).collect();
            let mut expected = vec![7; bytes];
            let taken = model::storage::rearrange(&lent, &mut expected) == Answer::Done;
            for rearrange in [rearrange_by_planes, rearrange_by_words] {
                let mut written = vec![7; bytes];
                assert_eq!(rearrange(&lent, &mut written), taken);
                assert_eq!(written, expected);
            }
            let mut expected = vec![7; words];
            assert_eq!(model::storage::restore(&stored, &mut expected) == Answer::Done, taken);
            for restore in [restore_by_words, restore_by_parts, restore_by_planes] {
                let mut restored = vec![7; words];
                assert_eq!(restore(&stored, &mut restored), taken);
                assert_eq!(restored, expected);
            }
        }
    }
}
