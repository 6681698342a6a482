//! The total of a run over several logs: by hand, and compared with sums of all values.

mod support;

use model::random::Random;
use std::fs;
use std::os::unix::ffi::OsStrExt;
use std::path::Path;
use support::{Folder, ended, values};

fn log(folder: &Folder, name: &str, writes: &[u64]) {
    folder.quiet(&["create", name, "1"]);
    folder.output(&["step", name, "B 0", "F 0", "C 0", "P 0"]);
    let lines: String = writes.iter().map(|value| format!("W 0 {value}\n")).collect();
    assert_eq!(folder.run_on(&["step", name], lines.as_bytes()).status, Some(0));
}

// 0.0004 and 0.0004 are 0.000 each, and 0.001 together; with the third it is 4503.600.
#[test]
fn by_hand() {
    let folder = Folder::new();
    log(&folder, "1.log", &[400_000_000]);
    log(&folder, "2.log", &[300_000_000, 100_000_000]);
    log(&folder, "3.log", &[4_503_599_627_370_495]);
    folder.quiet(&["create", "empty.log", "1"]);
    folder.output(&["step", "2.log", "O 0", "C 0", "P 0"]);
    let (one, two) = (
        "ledger 1 entries 1 sum 0.000400000000\n",
        "ledger 1 entries 2 sum 0.000400000000\nledger 2 entries 0 sum 0.000000000000\n",
    );
    assert_eq!(folder.output(&["total", "1.log"]), format!("{one}total 0.000400000000\nrounded 0.000\n"));
    let both = format!("log 1.log\n{one}log 2.log\n{two}total 0.000800000000\nrounded 0.001\n");
    assert_eq!(folder.output(&["total", "1.log", "2.log"]), both);
    let all = format!(
        "log 3.log\nledger 1 entries 1 sum 4503.599627370495\nlog empty.log\nlog 2.log\n{two}total 4503.600027370495\nrounded 4503.600\n"
    );
    assert_eq!(folder.output(&["total", "3.log", "empty.log", "2.log"]), all);
    // The log that is named twice would count twice, under whatever name.
    std::os::unix::fs::symlink(folder.path("1.log"), folder.path("link.log")).unwrap();
    let said = folder.failure(2, &["total", "1.log", "2.log", "link.log"]);
    assert!(said.starts_with("cindrolf: link.log is named twice, and would count twice\nusage: "), "{said}");
    fs::write(folder.path("a.session"), "1\nB 0\n").unwrap();
    let said = "cindrolf: a.session is no log: several FILEs must all be logs\n";
    assert_eq!(folder.failure(2, &["total", "1.log", "a.session"]), said);
    assert_eq!(folder.failure(2, &["total", "1.log", "nowhere"]), "cindrolf: there is no file nowhere\n");
    assert_eq!(
        folder.failure(2, &["total", "--json", "a.session"]),
        "cindrolf: --json is of logs, and a.session is a session\n"
    );
    let said = "cindrolf: --json is of logs, and standard input has a session\n";
    assert_eq!(folder.failure(2, &["total", "--json"]), said);
}

// A name with a line end in it, and one that is no text, stand on one line each.
#[test]
fn names_of_any_bytes() {
    let folder = Folder::new();
    log(&folder, "1.log", &[1]);
    fs::copy(folder.path("1.log"), folder.path("a\nb.log")).unwrap();
    let odd = Path::new(std::ffi::OsStr::from_bytes(b"c\xff.log"));
    fs::copy(folder.path("1.log"), folder.path(".").join(odd)).unwrap();
    let end = ended(folder.program(&["total", "a\nb.log"]).arg(odd).spawn().unwrap());
    let ledger = "ledger 1 entries 1 sum 0.000000000001\n";
    let all = format!("log a\\nb.log\n{ledger}log c\\xff.log\n{ledger}total 0.000000000002\nrounded 0.000\n");
    assert_eq!((end.status, end.output), (Some(0), all));
}

// Beyond 64 bits: 12 logs of 700 of the widest values.
#[test]
fn beyond_sixty_four_bits() {
    let (folder, mut random) = (Folder::new(), Random::new(3));
    let names: Vec<String> = (0..12).map(|number| format!("{number}.log")).collect();
    let mut sum = 0_u128;
    for name in &names {
        let writes: Vec<u64> = (0..700).map(|_| (1 << 52) - 1 - random.below(1 << 30)).collect();
        log(&folder, name, &writes);
        let stored = values(&folder.output(&["chain", name]));
        assert_eq!(stored, writes);
        sum += stored.into_iter().map(u128::from).sum::<u128>();
    }
    assert!(sum > u128::from(u64::MAX));
    let args: Vec<&str> = ["total"].into_iter().chain(names.iter().map(String::as_str)).collect();
    let output = folder.output(&args);
    let unit = 1_000_000_000_000;
    let thousandths = sum / (unit / 1000) + u128::from(sum % (unit / 1000) >= unit / 2000);
    let rounded = format!("rounded {}.{:03}\n", thousandths / 1000, thousandths % 1000);
    assert!(output.ends_with(&format!("total {}.{:012}\n{rounded}", sum / unit, sum % unit)), "{output}");
    assert_eq!(output.lines().count(), 12 * 2 + 2);
}
