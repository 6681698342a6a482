//! Texts read as sentences: every sentence, and texts that are nearly one, on the library and on the model. A text is lent from the
//! middle of others, so that a byte read before it or behind it would show.

use model::random::Random;
use model::sentences::{LAST_CLIENT, LAST_REFUSAL, Numbers, STEPS, sentence};
use std::fmt;

/// What is compared with the model: it reads a text.
pub type Subject = fn(&[u8]) -> Option<Numbers>;

/// The bytes of a long text: more than 16 bits count.
const LONG: usize = 200 * 1024;

/// How often each kind of answer was met.
#[derive(Clone, Copy, Debug, Default, PartialEq, Eq)]
pub struct Met {
    /// Texts that are a sentence.
    pub sentences: u64,
    /// Texts that are none.
    pub others: u64,
}

impl fmt::Display for Met {
    fn fmt(&self, f: &mut fmt::Formatter<'_>) -> fmt::Result {
        let Met { sentences, others } = self;
        writeln!(f, "read        {:>10} texts:  sentences {sentences}  none {others}", self.calls())
    }
}

impl Met {
    /// How many texts were compared.
    pub fn calls(&self) -> u64 {
        self.sentences + self.others
    }
}

/// The library's side, through the crate for controllers. What that doesn't hand on shows as a difference.
pub fn library(text: &[u8]) -> Option<Numbers> {
    use cindrolf::{calls, raw};
    // SAFETY: the text is valid for its length, and nothing is changed.
    let raw::SentenceSaid { found, step, client, refusal } =
        unsafe { raw::cindrolf_read_sentence(text.as_ptr(), text.len()) };
    let said = Numbers { step, client, refusal };
    let handed_on = calls::read_sentence(text).map(|said| {
        said.map(|said| Numbers { step: said.kind.number(), client: said.client, refusal: said.refusal.number() })
    });
    let wrong = Some(Numbers { step: u64::MAX, client: u64::MAX, refusal: u64::MAX });
    match (found, handed_on) {
        (0, Ok(None)) if said == Numbers::default() => None,
        (1, Ok(Some(handed_on))) if handed_on == said => Some(said),
        _ => wrong,
    }
}

/// Compares one text, which stands between others that would go on with it.
fn compare(subject: Subject, before: &[u8], text: &[u8], behind: &[u8], met: &mut Met) -> Result<(), String> {
    let all = [before, text, behind].concat();
    let given = subject(&all[before.len()..before.len() + text.len()]);
    let expected = model::sentences::read(text);
    if given != expected {
        let shown = String::from_utf8_lossy(&text[..text.len().min(200)]).into_owned();
        return Err(format!("{shown:?}, {} bytes: the library reads {given:?}, the model {expected:?}\n", text.len()));
    }
    match expected {
        Some(_) => met.sentences += 1,
        None => met.others += 1,
    }
    Ok(())
}

/// Compares every sentence.
pub fn all(subject: Subject, met: &mut Met) -> Result<(), String> {
    for step in 0..STEPS.len() as u64 {
        for client in 0..=LAST_CLIENT {
            for refusal in 1..=LAST_REFUSAL {
                compare(subject, b"c", sentence(step, client, refusal).as_bytes(), b" ", met)?;
            }
        }
    }
    Ok(())
}

/// Compares the texts at the edges: none, long ones, and all that begin a sentence, each with the rest of it behind.
pub fn edges(subject: Subject, met: &mut Met) -> Result<(), String> {
    let shortest = b"name of client 0: the log is full";
    compare(subject, shortest, b"", shortest, met)?;
    for filler in *b"0 :a\0\xff" {
        let filled = vec![filler; LONG];
        compare(subject, b"", &filled, b"", met)?;
        compare(subject, b"", &[shortest, &*filled].concat(), b"", met)?;
        compare(subject, b"", &[&*filled, shortest].concat(), b"", met)?;
        compare(subject, b"", &[b"name of client 0", &*filled, b": the log is full"].concat(), b"", met)?;
    }
    for step in 0..STEPS.len() as u64 {
        for refusal in 1..=LAST_REFUSAL {
            let whole = sentence(step, 7 * refusal, refusal);
            for end in 0..whole.len() {
                let (text, rest) = whole.as_bytes().split_at(end);
                compare(subject, b"", text, rest, met)?;
                compare(subject, text, rest, b"", met)?;
            }
        }
    }
    Ok(())
}

/// Compares one text that is a sentence but for one or two faults, or for none.
pub fn any(subject: Subject, random: &mut Random, met: &mut Met) -> Result<(), String> {
    let mut text = any_sentence(random).into_bytes();
    for _ in 0..random.below(3) {
        damage(&mut text, random);
    }
    compare(subject, any_sentence(random).as_bytes(), &text, any_sentence(random).as_bytes(), met)
}

fn any_sentence(random: &mut Random) -> String {
    let step = random.below(STEPS.len() as u64);
    let client = random.between(0, LAST_CLIENT);
    let client = random.pick(&[0, 9, 10, 99, 100, LAST_CLIENT, client]);
    sentence(step, client, random.between(1, LAST_REFUSAL))
}

/// Changes a text: at a byte of it, at its number or at an end.
fn damage(text: &mut Vec<u8>, random: &mut Random) {
    let at = random.below(text.len() as u64 + 1) as usize;
    let number = text.iter().position(u8::is_ascii_digit).unwrap_or(at);
    let byte = random.word() as u8;
    let byte = random.pick(&[b' ', b':', b'0', b'a', 0, b'\n', byte]);
    match random.below(10) {
        0 if at < text.len() => text[at] ^= 1 << random.below(8),
        1 if at < text.len() => text[at] = byte,
        2 if at < text.len() => drop(text.remove(at)),
        3 => text.insert(at, byte),
        4 => text.truncate(at),
        5 => drop(text.drain(..at)),
        6 => text.push(random.pick(b" \0\n.a0")),
        7 => text.insert(number, random.pick(b"0125+- ")),
        8 => {
            let clients = [256, 257, 299, 511, 1 << 32, 1 << 63, u64::MAX, random.word(), random.below(300)];
            let digits = text[number..].iter().take_while(|byte| byte.is_ascii_digit()).count();
            let client = random.pick(&clients).to_string();
            text.splice(number..number + digits, client.bytes());
        }
        _ => text.extend_from_slice(any_sentence(random).as_bytes()),
    }
}
