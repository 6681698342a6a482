//! Compares what the model rearranges with bytes that were worked out by hand from the description.

use model::Answer;
use model::storage::{rearrange, restore};

const REFUSED: Answer = Answer::Refused(26);

/// Both ways, over buffers that hold something else before.
fn agree(words: &[u64], bytes: &[u8]) {
    let (mut written, mut restored) = (vec![0xA5; bytes.len()], vec![0xA5; words.len()]);
    assert_eq!(rearrange(words, &mut written), Answer::Done);
    assert_eq!(written, bytes);
    assert_eq!(restore(bytes, &mut restored), Answer::Done);
    assert_eq!(restored, words);
}

#[test]
fn by_hand() {
    agree(&[], &[]);
    agree(&[0x0102_0304_0506_0708], &[1, 2, 3, 4, 5, 6, 7, 8]);
    // 5, then 5 to 261 is 256, then 261 to 260 wraps to 2^64 - 1.
    agree(&[5, 261, 260], &[0, 0, 255, 0, 0, 255, 0, 0, 255, 0, 0, 255, 0, 0, 255, 0, 0, 255, 0, 1, 255, 5, 0, 255]);
    // 2^64 - 1, then 1 up to 0, then 2^63 up.
    agree(
        &[u64::MAX, 0, 1 << 63],
        &[255, 0, 128, 255, 0, 0, 255, 0, 0, 255, 0, 0, 255, 0, 0, 255, 0, 0, 255, 0, 0, 255, 1, 0],
    );
}

#[test]
fn lengths() {
    for (words, bytes) in
        [(0, 1), (0, 8), (1, 0), (1, 7), (1, 9), (2, 8), (2, 24), (4096, 32767), (4097, 32776), (4097, 32768)]
    {
        let (mut written, mut restored) = (vec![7; bytes], vec![7; words]);
        assert_eq!(rearrange(&vec![1; words], &mut written), REFUSED, "{words} words, {bytes} bytes");
        assert_eq!(restore(&vec![1; bytes], &mut restored), REFUSED, "{bytes} bytes, {words} words");
        assert!(written.iter().all(|&byte| byte == 7) && restored.iter().all(|&word| word == 7));
    }
    assert_eq!(rearrange(&[1; 4096], &mut [0; 32768]), Answer::Done);
    assert_eq!(restore(&[1; 32768], &mut [0; 4096]), Answer::Done);
}
