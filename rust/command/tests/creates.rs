//! Many processes that create one log at once, of which half are killed.

mod support;

use std::process::Child;
use std::time::Duration;
use support::{Folder, ended};

const ROUNDS: u64 = 24;
const AT_ONCE: u64 = 10;

/// Kills every other child, each a little later than the one before, by steps that differ from round to round.
fn kill_half(children: &mut [Child], round: u64) {
    for (number, child) in (0..).zip(children).step_by(2) {
        std::thread::sleep(Duration::from_micros((round * 613 + number * 271) % 2_500));
        child.kill().unwrap();
    }
}

// One of them makes it, or none; and who is told that it is there already finds a whole log.
#[test]
fn half_of_them_killed() {
    let folder = Folder::new();
    let (mut made, mut unfinished) = (0, 0);
    for round in 0..ROUNDS {
        let name = format!("run{round}.log");
        let mut children: Vec<_> =
            (0..AT_ONCE).map(|_| folder.program(&["create", &name, "3"]).spawn().unwrap()).collect();
        kill_half(&mut children, round);
        let ends: Vec<_> = children.into_iter().map(ended).collect();
        let done = ends.iter().filter(|end| end.status == Some(0)).count();
        assert!(done <= 1, "{ends:?}");
        let exists = format!("cindrolf: {name}: there is a file of this name already\n");
        let others: Vec<_> = ends.iter().filter(|end| end.status == Some(1)).collect();
        assert!(others.iter().all(|end| end.errors == exists), "{others:?}");
        let check = folder.run(&["check", &name]);
        if check.status == Some(0) {
            assert!(check.output.starts_with("ok, 0 rows\n"), "{check:?}");
            made += 1;
        } else {
            // Nobody was told anything, and creating it again finishes it.
            assert!(done == 0 && others.is_empty(), "{check:?} after {ends:?}");
            folder.quiet(&["create", &name, "3"]);
            assert_eq!(folder.checked(&name), "ok, 0 rows");
            unfinished += 1;
        }
        assert_eq!(folder.output(&["step", &name, "N 2"]), "1 ok\n");
    }
    assert_eq!(made + unfinished, ROUNDS);
}
