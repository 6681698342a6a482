//! Compares the frames with what the model prints for the same inputs, and applies and undoes their changes.

use cindrolf::Stage;
use expected::files::{input, input_names, root};
use model::sentences;
use trace::frames::{Frames, NoFrames, Outcome};
use trace::scene::{Change, Scene};

/// The transcript and the last two lines of the run total, put together from the frames.
fn printed(input: &[u8]) -> (String, String) {
    let frames = match Frames::of(input) {
        Ok(frames) => frames,
        Err(NoFrames::NoSession(reason)) => return (format!("{reason}\n"), format!("{reason}\n")),
        Err(NoFrames::Library(error)) => panic!("{error}"),
    };
    let [chain, total, rounded] = &frames.results;
    let lines: String = (1..).zip(&frames.frames).map(|(place, frame)| format!("{place} {}\n", frame.reply)).collect();
    (format!("{lines}{chain}\n"), format!("{total}\n{rounded}\n"))
}

fn inputs() -> Vec<Vec<u8>> {
    let mut inputs: Vec<_> = input_names().unwrap().iter().map(|name| input(name).unwrap()).collect();
    for file in std::fs::read_dir(root().join("examples")).unwrap() {
        let file = file.unwrap().path();
        if file.extension().is_some_and(|extension| extension == "session") {
            inputs.push(std::fs::read(file).unwrap());
        }
    }
    inputs
}

#[test]
fn replies_chain_and_totals_are_the_models() {
    let inputs = inputs();
    assert!(inputs.len() > 300);
    for input in inputs {
        let (transcript, total) = printed(&input);
        assert_eq!(transcript, expected::session::transcript(&input));
        let whole = expected::total::output(&input);
        assert!(whole.ends_with(&total), "{total} is no end of {whole}");
    }
}

#[test]
fn a_refused_step_has_the_models_sentence() {
    const LETTERS: &str = "NBAFLKCPWO";
    let mut refused = 0;
    for frames in inputs().iter().filter_map(|input| Frames::of(input).ok()) {
        for frame in frames.frames.iter().filter(|frame| frame.outcome == Outcome::Refused) {
            let step = LETTERS.find(&frame.line[..1]).unwrap() as u64;
            let refusal = frame.reply.strip_prefix("ref ").unwrap().parse().unwrap();
            assert_eq!(frame.text, sentences::sentence(step, frame.client.unwrap(), refusal));
            assert!(frame.changes.iter().all(|change| matches!(change, Change::Blocked(_))), "{frame:?}");
            refused += 1;
        }
    }
    assert!(refused > 100);
}

/// The scene with the change made, or taken back.
fn change(scene: &mut Scene, change: &Change, forward: bool) {
    match (*change, forward) {
        (Change::Created(_, condition), true) => scene.ledgers.push(condition),
        (Change::Created(_, _), false) => drop(scene.ledgers.pop()),
        (Change::Listed(ledger), true) => scene.list.push(ledger),
        (Change::Listed(_), false) => drop(scene.list.pop()),
        (Change::Condition(ledger, from, to), _) => {
            scene.ledgers[ledger as usize - 1] = if forward { to } else { from }
        }
        (Change::Stored(_), true) => scene.entry_count += 1,
        (Change::Stored(_), false) => scene.entry_count -= 1,
        (Change::Named(from, to), _) => scene.named = if forward { to } else { from },
        (Change::Standing(client, from, to), _) => scene.clients[client as usize] = if forward { to } else { from },
        (Change::Blocked(_), _) => {}
    }
}

#[test]
fn changes_lead_from_the_start_to_the_end_and_back() {
    for frames in inputs().iter().filter_map(|input| Frames::of(input).ok()) {
        let mut scene = frames.start.clone();
        frames.frames.iter().flat_map(|frame| &frame.changes).for_each(|at| change(&mut scene, at, true));
        assert_eq!(scene, frames.end);
        let all: Vec<_> = frames.frames.iter().flat_map(|frame| &frame.changes).collect();
        all.iter().rev().for_each(|at| change(&mut scene, at, false));
        assert_eq!(scene, frames.start);
    }
}

// Worked out by hand from the reference, for the handover of the README.
#[test]
fn a_handover_by_hand() {
    let input = std::fs::read(root().join("examples/handover.session")).unwrap();
    let frames = Frames::of(&input).unwrap();
    let text = |place: usize| frames.frames[place - 1].text.as_str();
    assert_eq!(text(1), "become of client 0: client 0 fetches the list next");
    assert_eq!(text(4), "append of client 0: ledger 1 is listed; client 0 writes to ledger 1");
    assert_eq!(text(5), "write of client 0: 201 is stored in ledger 1");
    assert_eq!(text(6), "name of client 1: client 1 is the named leader");
    assert_eq!(text(9), "fetch of client 1: client 1 fences ledger 1 next");
    let fence = "close last of client 1: ledger 1 is fenced, recovering; client 0 writes to fenced ledger 1; client 1 closes ledger 1 next";
    assert_eq!(text(10), fence);
    assert_eq!(text(11), "finish of client 1: ledger 1 is fenced, closed; client 1 creates a ledger next");
    assert_eq!(text(12), "write of client 0: another leader has fenced the ledger");
    let [Change::Blocked(blocked)] = frames.frames[11].changes[..] else { panic!("{:?}", frames.frames[11]) };
    assert_eq!((blocked.ledger, blocked.client, blocked.value), (1, 0, 203));
    assert_eq!(frames.end.list, [1, 2]);
    let stages: Vec<_> = frames.end.clients.iter().map(|client| (client.stage, client.ledger, client.fenced)).collect();
    assert_eq!(stages, [(Stage::Writing, Some(1), true), (Stage::Writing, Some(2), false)]);
    assert_eq!(frames.results[0], "chain 0:201 0:202 1:204");
}
