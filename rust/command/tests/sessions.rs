//! Sessions taken on a log in a file, compared with what the model prints for them.

mod support;

use expected::files::{input, input_names, root};
use expected::grammar::Session;
use support::{Folder, kept};

/// The model's transcript without its last line, and that line.
fn parted(transcript: &str) -> (&str, &str) {
    transcript.split_at(transcript.rfind("chain").unwrap())
}

/// The bytes after the client count.
fn lines(session: &[u8]) -> &[u8] {
    let end = session.iter().position(|&byte| byte == b'\n').unwrap();
    &session[end + 1..]
}

fn compare(session: &[u8], transcript: &str, total: &str) {
    let clients = Session::read(session).unwrap().client_count;
    let folder = Folder::with_log(clients);
    let taken = folder.run_on(&["step", "run.log"], lines(session));
    let (replies, chain) = parted(transcript);
    assert_eq!((taken.status, taken.errors.as_str()), (Some(0), ""));
    assert_eq!(taken.output, replies, "{}", String::from_utf8_lossy(session));
    assert_eq!(folder.output(&["chain", "run.log"]), chain);
    assert_eq!(folder.output(&["total", "run.log"]), total);
}

#[test]
fn the_examples() {
    let mut examples = 0;
    for file in std::fs::read_dir(root().join("examples")).unwrap() {
        let file = file.unwrap().path();
        if file.extension().is_some_and(|extension| extension == "session") {
            let session = std::fs::read(&file).unwrap();
            compare(&session, &kept(file.with_extension("out")), &kept(file.with_extension("total")));
            examples += 1;
        }
    }
    assert!(examples >= 6, "{examples}");
}

// Bad lines of every kind, too, and last lines without an end.
#[test]
fn short_inputs_of_the_test_programs() {
    let inputs = input_names().unwrap().into_iter().map(|name| input(&name).unwrap());
    let short = |input: &Vec<u8>| Session::read(input).is_ok_and(|session| session.lines.len() <= 60);
    let inputs: Vec<_> = inputs.filter(short).collect();
    assert!(inputs.len() > 100, "{}", inputs.len());
    std::thread::scope(|scope| {
        for part in inputs.chunks(inputs.len().div_ceil(4)) {
            scope.spawn(move || {
                for session in part {
                    compare(session, &expected::session::transcript(session), &expected::total::output(session));
                }
            });
        }
    });
}

// Each line by a process of its own, which numbers it from 1.
#[test]
fn one_process_a_line() {
    let session = kept("examples/recovery.session");
    let transcript = kept("examples/recovery.out");
    let (replies, chain) = parted(&transcript);
    let folder = Folder::with_log(3);
    assert_eq!(session.lines().next(), Some("3"));
    assert_eq!(session.lines().count() - 1, replies.lines().count());
    for (line, reply) in session.lines().skip(1).zip(replies.lines()) {
        let (_, reply) = reply.split_once(' ').unwrap();
        assert_eq!(folder.steps(&[line]), format!("1 {reply}\n"));
    }
    assert_eq!(folder.output(&["chain", "run.log"]), chain);
}

#[test]
fn lines_as_arguments() {
    let folder = Folder::with_log(1);
    let lines =
        ["B 0", "F 0", "C 0", "P 0", "W 0 7", "B 0", "W 1 7", "b 0", "W 0 7\n", "", "W 0 8", "W 0 4503599627370496"];
    let ended = folder.run(&[&["step", "run.log"], &lines[..]].concat());
    let replies = "1 ok\n2 ok\n3 ok\n4 ok\n5 entry 0 place 0\n6 ref 5\n7 ref 3\n8 bad line\n9 bad line\n10 bad line\n\
                   11 entry 1 place 1\n12 ref 11\n";
    assert_eq!((ended.status, ended.output.as_str()), (Some(0), replies));
    assert_eq!(folder.output(&["chain", "run.log"]), "chain 0:7 0:8\n");
}

#[test]
fn refusals_in_words() {
    let folder = Folder::with_log(2);
    let replies = folder.output(&["step", "--explain", "run.log", "B 0", "W 0 7", "B 1", "X 1"]);
    assert_eq!(
        replies,
        "1 ok\n\
         2 ref 8: write of client 0: the client is at another stage\n\
         3 ref 6: become of client 1: the client is not the named leader\n\
         4 bad line\n"
    );
}

#[test]
fn bytes_that_are_no_line() {
    let folder = Folder::with_log(2);
    let mut input = b"2\nB 0\r\nB\t0\nB 0\xFF\n\xFF\xFE\0\n\nW 0 00\n".to_vec();
    input.extend(std::iter::repeat_n(b'9', 3_000_000));
    input.extend(b"\nB 0\nF 0");
    let ended = folder.run_on(&["step", "run.log"], &input);
    let bad: String = (1..=8).map(|number| format!("{number} bad line\n")).collect();
    assert_eq!((ended.status, ended.output), (Some(0), bad + "9 ok\n10 bad line\n"));
    assert_eq!(folder.output(&["step", "run.log"]), "");
}

#[test]
fn a_split_line_is_explained() {
    let folder = Folder::with_log(1);
    let ended = folder.run(&["step", "run.log", "B", "0"]);
    assert_eq!((ended.status, ended.output.as_str()), (Some(0), "1 bad line\n2 bad line\n"));
    assert_eq!(ended.errors, "cindrolf: a LINE is one argument: \"W 0 201\", and not W 0 201\n");
}
