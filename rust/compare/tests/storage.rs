//! Rearranged and restored words beside the model, and there and back; and that planted faults are found and made small.

use cindrolf::{rearrange, restore};
use compare::storage::{Counts, Subject, Way, compare, edges, library, model};
use model::Answer;
use model::random::Random;

/// The first report, within so many tries.
fn first(subject: Subject, tries: u64) -> Option<String> {
    let (mut counts, mut random) = (Counts::default(), Random::new(3));
    (0..tries).find_map(|_| compare(subject, &mut counts, &mut random).err())
}

// Of 6 × 5 pairs of lengths each way, 5 are taken: those of up to 4,096 words with eight times as many bytes. With no words, three
// pairs come to no bytes, which are taken.
#[test]
fn agrees_at_the_edges() {
    let mut counts = Counts::default();
    edges(library, &mut counts).unwrap();
    assert_eq!(counts, Counts { rearrange: (7, 23), restore: (7, 23) });
}

#[test]
fn agrees_on_random_words_and_bytes() {
    let (mut counts, mut random) = (Counts::default(), Random::new(4));
    for _ in 0..3_000 {
        compare(library, &mut counts, &mut random).unwrap();
    }
    assert!([counts.rearrange, counts.restore].iter().all(|&(done, refused)| done > 500 && refused > 500), "{counts}");
}

#[test]
fn there_and_back() {
    let mut random = Random::new(5);
    for length in [0, 1, 2, 3, 255, 4095, 4096] {
        let words: Vec<u64> = (0..length).map(|_| random.word()).collect();
        let bytes: Vec<u8> = (0..8 * length).map(|_| random.word() as u8).collect();
        let (mut written, mut restored) = (vec![1; 8 * length], vec![1; length]);
        rearrange(&words, &mut written).unwrap();
        restore(&written, &mut restored).unwrap();
        assert_eq!(restored, words);
        restore(&bytes, &mut restored).unwrap();
        rearrange(&restored, &mut written).unwrap();
        assert_eq!(written, bytes);
    }
}

// Likely mistakes, each beside the right answer.
fn least_byte_first(way: Way, words: &mut [u64], bytes: &mut [u8]) -> Answer {
    let answer = model(way, words, bytes);
    if answer == Answer::Done && way == Way::Rearrange && !words.is_empty() {
        let columns: Vec<&[u8]> = bytes.chunks(words.len()).rev().collect();
        bytes.copy_from_slice(&columns.concat());
    }
    answer
}

fn difference_from_the_changed_word(way: Way, words: &mut [u64], bytes: &mut [u8]) -> Answer {
    let answer = model(way, words, bytes);
    if answer == Answer::Done && way == Way::Rearrange {
        let (mut before, count) = (0, words.len());
        for (index, &word) in words.iter().enumerate() {
            before = word.wrapping_sub(before);
            (0..8).zip(before.to_be_bytes()).for_each(|(column, byte)| bytes[column * count + index] = byte);
        }
    }
    answer
}

fn first_word_dropped(way: Way, words: &mut [u64], bytes: &mut [u8]) -> Answer {
    let answer = model(way, words, bytes);
    if answer == Answer::Done && way == Way::Restore && !words.is_empty() {
        words[0] = 0;
    }
    answer
}

fn takes_one_word_more(way: Way, words: &mut [u64], bytes: &mut [u8]) -> Answer {
    if words.len() == 4097 && bytes.len() == 8 * 4097 { Answer::Done } else { model(way, words, bytes) }
}

fn changes_the_words(way: Way, words: &mut [u64], bytes: &mut [u8]) -> Answer {
    let answer = model(way, words, bytes);
    if way == Way::Rearrange && words.len() > 1 {
        words[1] = words[1].wrapping_sub(words[0]);
    }
    answer
}

fn writes_before_it_refuses(way: Way, words: &mut [u64], bytes: &mut [u8]) -> Answer {
    let answer = model(way, words, bytes);
    if answer != Answer::Done && way == Way::Restore && !words.is_empty() {
        words[0] ^= 1;
    }
    answer
}

#[test]
fn finds_planted_faults() {
    let report = |subject| first(subject, 400).expect("the fault is found");
    let text = report(least_byte_first);
    assert!(text.starts_with("Rearrange with 1 words and 8 bytes: byte "), "{text}");
    let text = report(difference_from_the_changed_word);
    assert!(text.starts_with("Rearrange with 3 words and 24 bytes: byte "), "{text}");
    let text = report(first_word_dropped);
    assert!(text.starts_with("Restore with 1 words and 8 bytes: word 0 differs"), "{text}");
    let text = report(changes_the_words);
    assert!(text.starts_with("Rearrange with 2 words and 16 bytes: word 1 differs"), "{text}");
    let text = report(writes_before_it_refuses);
    assert!(text.starts_with("Restore with ") && text.contains(": word 0 differs"), "{text}");
}

#[test]
fn finds_a_word_too_many() {
    let text = edges(takes_one_word_more, &mut Counts::default()).unwrap_err();
    assert!(text.contains("with 4097 words and 32776 bytes: the answer is Done, the model's Refused(26)"), "{text}");
}
