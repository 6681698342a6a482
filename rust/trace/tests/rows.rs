//! Compares the frames of rows with those of the session with the same steps, from any row on and for one client.

use cindrolf::{Answer, Error, Log, LogRef, Refusal, Step};
use expected::files::{input, input_names, root};
use session::Session;
use trace::frames::{Frame, Frames};
use trace::rows::{Asked, Row, Rows};
use trace::scene::{Change, Scene};

/// The sessions that have good lines alone.
fn sessions() -> Vec<Vec<u8>> {
    let mut inputs: Vec<_> = input_names().unwrap().iter().map(|name| input(name).unwrap()).collect();
    inputs.push(std::fs::read(root().join("examples/teaching_stale_leader.session")).unwrap());
    let is_good = |input: &Vec<u8>| {
        Session::read(input).is_ok_and(|session| session.lines.iter().all(|line| line.step().is_some()))
    };
    inputs.retain(is_good);
    inputs
}

fn take(log: &mut Log, client: u64, step: Step) -> Result<Answer, Refusal> {
    match log.take(client, step) {
        Err(Error::Refused(refusal)) => Err(refusal),
        taken => Ok(taken.unwrap()),
    }
}

fn row(number: u64) -> Row {
    Row { number, time: None, process: None, note: None }
}

/// The frames of a session's steps as rows, from one on, of all clients or of one.
fn frames(input: &[u8], from: u64, only: Option<u64>) -> Frames {
    let session = Session::read(input).unwrap();
    let mut log = Log::fresh(session.client_count).unwrap();
    let (mut rows, mut end) = (Rows::from(log.as_ref()).unwrap(), log.clone());
    for (number, line) in (1..).zip(&session.lines) {
        if number == from {
            (rows, end) = (Rows::from(log.as_ref()).unwrap(), log.clone());
        }
        let (client, step) = line.step().unwrap();
        let is_shown = number >= from && only.is_none_or(|only| only == client);
        if is_shown {
            rows.skip(log.as_ref()).unwrap();
        }
        let told = take(&mut log, client, step);
        if is_shown {
            let line = String::from_utf8(line.bytes.to_vec()).unwrap();
            rows.add(row(number), line, &Asked::Step(client, step), told, log.as_ref()).unwrap();
            end = log.clone();
        }
    }
    rows.finish("some".into(), end.as_ref()).unwrap()
}

/// A frame without what only rows have.
fn plain(frame: &Frame) -> Frame {
    Frame { row: None, hidden: Vec::new(), ..frame.clone() }
}

#[test]
fn rows_are_the_steps_of_the_session() {
    let sessions = sessions();
    assert!(sessions.len() > 150, "{}", sessions.len());
    for input in sessions {
        let (of_rows, of_session) = (frames(&input, 1, None), Frames::of(&input).unwrap());
        assert!(of_rows.frames.iter().map(plain).eq(of_session.frames));
        assert_eq!((of_rows.start, of_rows.end), (of_session.start, of_session.end));
        assert_eq!((of_rows.entries, of_rows.results), (of_session.entries, of_session.results));
    }
}

/// The scene that these changes lead to, and how many entries they store.
fn led(scene: &Scene, changes: &[Change]) -> Scene {
    let mut scene = scene.clone();
    for change in changes {
        match *change {
            Change::Created(_, condition) => scene.ledgers.push(condition),
            Change::Listed(ledger) => scene.list.push(ledger),
            Change::Condition(ledger, _, to) => scene.ledgers[ledger as usize - 1] = to,
            Change::Stored(_) => scene.entry_count += 1,
            Change::Named(_, to) => scene.named = to,
            Change::Standing(client, _, to) => scene.clients[client as usize] = to,
            Change::Blocked(_) => {}
        }
    }
    scene
}

// A page that begins later, or has one client's rows, shows the same log at each row as the page of all.
#[test]
fn a_part_shows_the_log_as_it_is() {
    for input in sessions().iter().filter(|input| input.len() < 300) {
        let whole = Frames::of(input).unwrap();
        let mut scenes = vec![whole.start.clone()];
        for frame in &whole.frames {
            scenes.push(led(scenes.last().unwrap(), &frame.changes));
        }
        for from in 1..=whole.frames.len() {
            for only in [None, Some(0), Some(1)] {
                let part = frames(input, from as u64, only);
                let empty = Scene { ledgers: Vec::new(), list: Vec::new(), entry_count: 0, ..part.start.clone() };
                let mut scene = led(&empty, &part.begin);
                assert_eq!(scene, scenes[from - 1]);
                for frame in &part.frames {
                    let number = frame.row.as_ref().unwrap().number as usize;
                    assert_eq!(led(&scene, &frame.hidden), scenes[number - 1]);
                    assert_eq!(plain(frame), whole.frames[number - 1]);
                    scene = scenes[number].clone();
                }
                assert_eq!(part.end, scene);
            }
        }
    }
}

fn led_log() -> Log {
    let mut log = Log::fresh(2).unwrap();
    for step in [Step::BECOME, Step::FETCH, Step::CREATE, Step::APPEND] {
        let _ = log.take(0, step).unwrap();
    }
    log
}

/// The frame of one more row.
fn one(log: &mut Log, asked: &Asked<'_>, told: impl FnOnce(&mut Log) -> Result<Answer, Refusal>) -> Frame {
    let mut rows = Rows::from(log.as_ref()).unwrap();
    let told = told(log);
    rows.add(row(9), "rights of 1: BAF".into(), asked, told, log.as_ref()).unwrap();
    let end: LogRef<'_> = log.as_ref();
    rows.finish(String::new(), end).unwrap().frames.remove(0)
}

// A score of 40 quarters is 0.1 expected errors.
#[test]
fn scores_marks_and_rights() {
    let mut log = led_log();
    let scores = [40, 40];
    let write = |log: &mut Log| Ok(Answer::from(log.write_scores(0, &scores).unwrap()));
    let stored = one(&mut log, &Asked::Scores(0, &scores), write);
    assert_eq!(stored.text, "write of client 0: 200000000000 is stored in ledger 1");
    assert_eq!((stored.mark.as_str(), stored.reply.as_str()), ("W", "entry 0 place 0"));
    let refused = one(&mut log, &Asked::Scores(0, &scores), |_| Err(Refusal::LedgerFenced));
    assert_eq!(refused.text, "write of client 0: another leader has fenced the ledger");
    let [Change::Blocked(blocked)] = refused.changes[..] else { panic!("{refused:?}") };
    assert_eq!((blocked.ledger, blocked.value), (1, 200_000_000_000));
    let too_high = one(&mut log, &Asked::Scores(0, &[373]), |_| Err(Refusal::LedgerFenced));
    assert!(too_high.changes.is_empty());
    let rights = one(&mut log, &Asked::Other(Some(1), "it is so".into()), |_| Ok(Answer::Done));
    assert_eq!((rights.client, rights.mark.as_str(), rights.text.as_str()), (Some(1), "rights", "it is so"));
    let none = one(&mut log, &Asked::Other(None, "it is so".into()), |_| Err(Refusal::UnknownClient));
    assert_eq!(
        (none.client, none.reply.as_str(), none.text.as_str()),
        (None, "ref 3", "the client number is not below the client count")
    );
}
