//! A block of SHA-256 with the instructions that a processor may have for it: a third of the time, and a row of a log
//! is one or two blocks.

use super::CONSTANTS;
use std::arch::x86_64::{
    __m128i, _mm_add_epi32, _mm_alignr_epi8, _mm_extract_epi32, _mm_set_epi32, _mm_sha256msg1_epu32,
    _mm_sha256msg2_epu32, _mm_sha256rnds2_epu32, _mm_shuffle_epi32,
};

/// Whether this processor has them.
pub fn are_there() -> bool {
    is_x86_feature_detected!("sha") && is_x86_feature_detected!("ssse3") && is_x86_feature_detected!("sse4.1")
}

/// Four words, the first in the lowest place.
#[target_feature(enable = "sse2")]
fn four(words: [u32; 4]) -> __m128i {
    let [first, second, third, fourth] = words.map(u32::cast_signed);
    _mm_set_epi32(fourth, third, second, first)
}

/// Goes on by a block.
#[target_feature(enable = "sha,sse2,ssse3,sse4.1")]
pub fn compress(state: &mut [u32; 8], block: &[u8; 64]) {
    let [a, b, c, d, e, f, g, h] = *state;
    // The order in which the instructions have the eight words.
    let before = [four([f, e, b, a]), four([h, g, d, c])];
    let [mut abef, mut cdgh] = before;
    let bytes: &[[[u8; 4]; 4]; 4] = block.as_chunks().0.as_chunks().0.first_chunk().expect("four times four words");
    let mut words = bytes.map(|four_words| four(four_words.map(u32::from_be_bytes)));
    for (turn, constants) in CONSTANTS.as_chunks().0.iter().enumerate() {
        let [first, second, third, fourth] = [0, 1, 2, 3].map(|at| words[(turn + at) % 4]);
        let sums = _mm_add_epi32(first, four(*constants));
        // Two rounds each: what was ABEF is CDGH then.
        cdgh = _mm_sha256rnds2_epu32(cdgh, abef, sums);
        abef = _mm_sha256rnds2_epu32(abef, cdgh, _mm_shuffle_epi32::<0b00_00_11_10>(sums));
        // The four words that come sixteen later. In the last turns nobody reads them.
        let next = _mm_add_epi32(_mm_sha256msg1_epu32(first, second), _mm_alignr_epi8::<4>(fourth, third));
        words[turn % 4] = _mm_sha256msg2_epu32(next, fourth);
    }
    let (abef, cdgh) = (_mm_add_epi32(abef, before[0]), _mm_add_epi32(cdgh, before[1]));
    let [f, e, b, a] = words_of(abef);
    let [h, g, d, c] = words_of(cdgh);
    *state = [a, b, c, d, e, f, g, h];
}

#[target_feature(enable = "sse4.1")]
fn words_of(four: __m128i) -> [u32; 4] {
    let words = [
        _mm_extract_epi32::<0>(four),
        _mm_extract_epi32::<1>(four),
        _mm_extract_epi32::<2>(four),
        _mm_extract_epi32::<3>(four),
    ];
    words.map(i32::cast_unsigned)
}
