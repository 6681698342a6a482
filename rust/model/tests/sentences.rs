//! Compares sentences and refusals of the model with texts worked out by hand.

use model::sentences::{Numbers, REASONS, TEXT_BYTES, read, write};

#[test]
fn by_hand() {
    let sentences = [
        (0, 0, 4, "name of client 0: the client is the named leader"),
        (4, 7, 7, "close last of client 7: the client does not lead"),
        (5, 10, 9, "finish of client 10: the client remembers what cannot be"),
        (8, 100, 13, "write of client 100: the log is full"),
        (9, 255, 28, "close own of client 255: there is no sentence for these numbers"),
    ];
    for (step, client, refusal, sentence) in sentences {
        let mut text = [b'#'; TEXT_BYTES];
        assert_eq!(write(step, client, refusal, &mut text), Ok(sentence.len()));
        assert_eq!(text[..sentence.len()], *sentence.as_bytes());
        assert!(text[sentence.len()..].iter().all(|&byte| byte == b'#'));
    }
}

#[test]
fn refused() {
    let mut text = [b'#'; TEXT_BYTES];
    assert_eq!(write(10, 256, 0, &mut text[..TEXT_BYTES - 1]), Err(27));
    for [step, client, refusal] in [[10, 0, 1], [0, 256, 1], [0, 0, 0], [0, 0, 29], [1 << 32, 0, 1], [0, 0, u64::MAX]] {
        assert_eq!(write(step, client, refusal, &mut text), Err(28));
    }
    assert_eq!(text, [b'#'; TEXT_BYTES]);
}

#[test]
fn reasons_of_the_reference() {
    assert_eq!(REASONS.len(), 28);
    assert_eq!(REASONS[22], "no mark of this name is kept");
}

#[test]
fn read_by_hand() {
    let numbers = |step, client, refusal| Some(Numbers { step, client, refusal });
    assert_eq!(read(b"name of client 0: the client is the named leader"), numbers(0, 0, 4));
    assert_eq!(read(b"close own of client 255: there is no sentence for these numbers"), numbers(9, 255, 28));
    let others: [&[u8]; 9] = [
        b"",
        b"close own of client 256: the log is full",
        b"write of client 07: the log is full",
        b"write of client : the log is full",
        b"write of client 7: the log is full ",
        b" write of client 7: the log is full",
        b"write of client 7: the log is ful",
        b"Write of client 7: the log is full",
        b"write of client 7:the log is full",
    ];
    for text in others {
        assert_eq!(read(text), None, "{}", String::from_utf8_lossy(text));
    }
}
